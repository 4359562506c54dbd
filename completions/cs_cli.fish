# Completions of cs_cli for fish. Written by tools/write-reference.
complete -c cs_cli -n __fish_use_subcommand -f -a check
complete -c cs_cli -n __fish_use_subcommand -f -a recover
complete -c cs_cli -n '__fish_seen_subcommand_from recover' -l workers -x
complete -c cs_cli -n '__fish_seen_subcommand_from recover' -l cut -x
