# Completes the words of the command `preset` in fish.
complete -c preset -f
complete -c preset -s h -l help -d 'print a summary'
complete -c preset -n __fish_use_subcommand -s V -l version -d 'print the version'
complete -c preset -n __fish_use_subcommand -a check -d 'say of each file that it is ok, or why it is refused'
complete -c preset -n __fish_use_subcommand -a plan -d 'what is packed and built'
complete -c preset -n __fish_use_subcommand -a listing -d 'partitions, components, applications and builds'
complete -c preset -n __fish_use_subcommand -a map -d 'the flash on the terminal, or drawn'
complete -c preset -n __fish_use_subcommand -a explain -d 'what a refusal means, and how it is mended'
complete -c preset -n '__fish_seen_subcommand_from check plan listing map' -k -a '(__fish_complete_suffix .toml)'
complete -c preset -n '__fish_seen_subcommand_from check' -s q -l quiet -d 'leave out what is said of accepted files'
complete -c preset -n '__fish_seen_subcommand_from check' -l deny -x -a notes -d 'what is a failure too'
complete -c preset -n '__fish_seen_subcommand_from plan map' -l app -x -d 'with the application of this key'
complete -c preset -n '__fish_seen_subcommand_from map' -l svg -r -F -d 'draw into this file'
complete -c preset -n '__fish_seen_subcommand_from explain' -k -a '
    1 2 3 4 5 6 7 8 9 10 11 12 13 14 15 16 17 20 21 22 23 24 25 30 31 32 33 34 35 40 41 42 43 44 45 46 47 48
    50 51 52 53 54 55 56 57 58 59 60 61 62 63 64 65 66 67 70 80 81'
