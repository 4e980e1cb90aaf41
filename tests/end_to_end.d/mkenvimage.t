  $ . "$TESTDIR/../setup"

Images and texts beside mkenvimage.

  $ needs mkenvimage
  $ printf 'board=x\nbootcmd=run a; run b\n' >text

an image on standard input
  $ mkenvimage -s 4096 -o made text >/dev/null
  $ ubtool <made
  board=x
  bootcmd=run a; run b

an image by its file
  $ ubtool printenv -i made
  board=x
  bootcmd=run a; run b

a change of an image
  $ printf 'bootcmd=run a; run b\nboard=y\n' | mkenvimage -p 0 -s 4096 -o wanted - >/dev/null
  $ ubtool setenv -i made board y
  $ cmp made wanted

a big-endian image
  $ mkenvimage -b -s 4096 -o made text >/dev/null
  $ ubtool printenv -i made --big-endian
  board=x
  bootcmd=run a; run b

a pair
  $ mkenvimage -r -s 4096 -o made text >/dev/null
  $ printf 'board=y\n' | mkenvimage -r -s 4096 -o other - >/dev/null
  $ ubtool printenv -i made --second other
  board=x
  bootcmd=run a; run b

a pair, the other way round
  $ ubtool printenv -i other --second made
  board=y

a pair of two sizes
  $ mkenvimage -r -s 8192 -o other text >/dev/null
  $ ubtool printenv -i made --second other
  ! ubtool: image sizes differ
  [1]

Texts as mkenvimage reads them:

  $ printf 'a=1\n# note\n\nb=x=y\nc=1\\\n2\na=3\n' >env.txt
  $ printf 'a=1\nb=2' >cut.txt
  $ printf '# nothing\n\n' >empty.txt
  $ printf 'a=1\r\nb=2\n' >returns.txt
  $ printf 'bootcmd=probe && setenv a 2\na=1\n' >boot.txt

env.txt, as mkenvimage reads it
  $ mkenvimage -s 4096 -o made env.txt >/dev/null
  $ ubtool printenv -i made >wanted
  $ ubtool printenv --text env.txt | cmp wanted

cut.txt, as mkenvimage reads it
  $ mkenvimage -s 4096 -o made cut.txt >/dev/null
  $ ubtool printenv -i made >wanted
  $ ubtool printenv --text cut.txt | cmp wanted

empty.txt, as mkenvimage reads it
  $ mkenvimage -s 4096 -o made empty.txt >/dev/null
  $ ubtool printenv -i made >wanted
  $ ubtool printenv --text empty.txt | cmp wanted

returns.txt, as mkenvimage reads it
  $ mkenvimage -s 4096 -o made returns.txt >/dev/null
  $ ubtool printenv -i made >wanted
  $ ubtool printenv --text returns.txt | cmp wanted

boot.txt, as mkenvimage reads it
  $ mkenvimage -s 4096 -o made boot.txt >/dev/null
  $ ubtool printenv -i made >wanted
  $ ubtool printenv --text boot.txt | cmp wanted

New images as mkenvimage makes them:

  $ printf 'a=1\n' >new.txt
  $ : >none.txt

new.txt as mkenvimage -s 4096 makes it
  $ mkenvimage -s 4096 -o made new.txt >/dev/null
  $ rm -f new; ubtool image --size 4096 -o new new.txt
  $ cmp made new

new.txt as mkenvimage -s 0x1000 -r makes it
  $ mkenvimage -s 0x1000 -r -o made new.txt >/dev/null
  $ rm -f new; ubtool image --size 0x1000 --redundant -o new new.txt
  $ cmp made new

new.txt as mkenvimage -s 512 -b -p 0 makes it
  $ mkenvimage -s 512 -b -p 0 -o made new.txt >/dev/null
  $ rm -f new; ubtool image --size 512 --big-endian --fill 0 -o new new.txt
  $ cmp made new

new.txt as mkenvimage -s 700 -r -p 0x7f makes it
  $ mkenvimage -s 700 -r -p 0x7f -o made new.txt >/dev/null
  $ rm -f new; ubtool image --size 700 --redundant --fill 0x7f -o new new.txt
  $ cmp made new

cut.txt as mkenvimage -s 4096 makes it
  $ mkenvimage -s 4096 -o made cut.txt >/dev/null
  $ rm -f new; ubtool image --size 4096 -o new cut.txt
  $ cmp made new

cut.txt as mkenvimage -s 0x1000 -r makes it
  $ mkenvimage -s 0x1000 -r -o made cut.txt >/dev/null
  $ rm -f new; ubtool image --size 0x1000 --redundant -o new cut.txt
  $ cmp made new

cut.txt as mkenvimage -s 512 -b -p 0 makes it
  $ mkenvimage -s 512 -b -p 0 -o made cut.txt >/dev/null
  $ rm -f new; ubtool image --size 512 --big-endian --fill 0 -o new cut.txt
  $ cmp made new

cut.txt as mkenvimage -s 700 -r -p 0x7f makes it
  $ mkenvimage -s 700 -r -p 0x7f -o made cut.txt >/dev/null
  $ rm -f new; ubtool image --size 700 --redundant --fill 0x7f -o new cut.txt
  $ cmp made new

none.txt as mkenvimage -s 4096 makes it
  $ mkenvimage -s 4096 -o made none.txt >/dev/null
  $ rm -f new; ubtool image --size 4096 -o new none.txt
  $ cmp made new

none.txt as mkenvimage -s 0x1000 -r makes it
  $ mkenvimage -s 0x1000 -r -o made none.txt >/dev/null
  $ rm -f new; ubtool image --size 0x1000 --redundant -o new none.txt
  $ cmp made new

none.txt as mkenvimage -s 512 -b -p 0 makes it
  $ mkenvimage -s 512 -b -p 0 -o made none.txt >/dev/null
  $ rm -f new; ubtool image --size 512 --big-endian --fill 0 -o new none.txt
  $ cmp made new

none.txt as mkenvimage -s 700 -r -p 0x7f makes it
  $ mkenvimage -s 700 -r -p 0x7f -o made none.txt >/dev/null
  $ rm -f new; ubtool image --size 700 --redundant --fill 0x7f -o new none.txt
  $ cmp made new

boot.txt as mkenvimage -s 4096 makes it
  $ mkenvimage -s 4096 -o made boot.txt >/dev/null
  $ rm -f new; ubtool image --size 4096 -o new boot.txt
  $ cmp made new

boot.txt as mkenvimage -s 0x1000 -r makes it
  $ mkenvimage -s 0x1000 -r -o made boot.txt >/dev/null
  $ rm -f new; ubtool image --size 0x1000 --redundant -o new boot.txt
  $ cmp made new

boot.txt as mkenvimage -s 512 -b -p 0 makes it
  $ mkenvimage -s 512 -b -p 0 -o made boot.txt >/dev/null
  $ rm -f new; ubtool image --size 512 --big-endian --fill 0 -o new boot.txt
  $ cmp made new

boot.txt as mkenvimage -s 700 -r -p 0x7f makes it
  $ mkenvimage -s 700 -r -p 0x7f -o made boot.txt >/dev/null
  $ rm -f new; ubtool image --size 700 --redundant --fill 0x7f -o new boot.txt
  $ cmp made new

a name that is there twice, as mkenvimage has it
  $ mkenvimage -s 64 -o made env.txt >/dev/null
  $ ubtool image --size 64 -o twice env.txt
  $ ubtool printenv -i made >wanted
  $ ubtool printenv -i twice | cmp wanted
