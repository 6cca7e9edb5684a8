# Written by tools/manual.
complete -W 'run pair soak --bound --keys --keys-file --pages --pages-a --pages-b --slice --timer --trace' -o default dpmi
