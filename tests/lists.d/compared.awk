# Compares two files of sections that start with `== NUMBER`, and prints how many are the same and how many are not; those that
# are not go to standard error. Usage: awk -f compared.awk WANTED GIVEN

/^== / {
    number = $2
    if (FNR == NR)
        numbers[++many] = number
    next
}

{
    if (FNR == NR)
        wanted[number] = wanted[number] $0 "\n"
    else
        given[number] = given[number] $0 "\n"
}

END {
    for (at = 1; at <= many; at++) {
        number = numbers[at]
        if (wanted[number] == given[number])
            same++
        else
            printf "FAILED: list %s\nwanted:\n%sfound:\n%s", number, wanted[number], given[number] >"/dev/stderr"
    }
    print same + 0, many - same
}
