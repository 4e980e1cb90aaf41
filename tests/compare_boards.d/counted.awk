# Of the records of ubtool and those of U-Boot, two files, how many runs there are, and are alike, stopped and different; the first
# of the last is in two files then.
FNR == 1 { side++ }
/^run / { run[side]++ }
/^done$/ { next }
{ record[side, run[side]] = record[side, run[side]] $0 "\n"; last[side, run[side]] = $0 }
/^dev / { asked[side, run[side]] = asked[side, run[side]] $0 "\n" }
END {
    for (i = 1; i <= run[1]; i++) {
        stops = last[1, i] ~ /^stop un(supported|known) /
        if (!stops && record[1, i] == record[2, i]) alike++
        else if (stops && index("\n" asked[2, i], "\n" asked[1, i]) == 1) stopped++
        else if (++different == 1) for (side = 1; side <= 2; side++) printf "%s", record[side, i] >("first." side)
    }
    print run[1] + 0, alike + 0, stopped + 0, different + 0
}
