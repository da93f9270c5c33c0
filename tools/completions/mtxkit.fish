# Completion of mtxkit for fish: put this file into ~/.config/fish/completions.

set -l commands info spy copy field integer symmetric order permute fill eval solve check help
complete -c mtxkit -n "not __fish_seen_subcommand_from $commands" -f -a "$commands"
complete -c mtxkit -l help -d 'what the program or the command does'
complete -c mtxkit -n "not __fish_seen_subcommand_from $commands" -l version -d 'its version'
complete -c mtxkit -n '__fish_seen_subcommand_from help' -f -a "$commands"
complete -c mtxkit -n '__fish_seen_subcommand_from info fill' -l json -d 'an object in JSON'
complete -c mtxkit -n '__fish_seen_subcommand_from spy' -l size -x -d 'cells of a side'
complete -c mtxkit -n '__fish_seen_subcommand_from spy' -s o -r -d 'the file to write'
complete -c mtxkit -n '__fish_seen_subcommand_from spy' -l svg -d 'a picture for browsers'
complete -c mtxkit -n '__fish_seen_subcommand_from spy' -l text -d 'a picture of characters'
complete -c mtxkit -n '__fish_seen_subcommand_from field' -a 'integer pattern'
complete -c mtxkit -n '__fish_seen_subcommand_from eval' -l rows -d 'row by row'
complete -c mtxkit -n '__fish_seen_subcommand_from eval' -l columns -d 'column by column'
complete -c mtxkit -n '__fish_seen_subcommand_from integer' -l scale -x -d 'the power of ten'
complete -c mtxkit -n '__fish_seen_subcommand_from order' -a 'amd rcm' -d 'how the order is computed'
complete -c mtxkit -n '__fish_seen_subcommand_from fill' -l order -r -a 'natural amd rcm' -d 'an order, or its file'
complete -c mtxkit -n '__fish_seen_subcommand_from solve' -l order -x -a 'amd natural rcm' -d 'the order of elimination'
complete -c mtxkit -n '__fish_seen_subcommand_from eval solve check' -l mod -x -a '2 3 5 7 11 13 101 65537 998244353 1000000007 2305843009213693951' -d 'a listed prime'
