# Completes the words of vp in fish.
set -l commands receipt label list join help
complete -c vp -n "not __fish_seen_subcommand_from $commands" -f
complete -c vp -n "not __fish_seen_subcommand_from $commands" -a receipt -d 'Prints a receipt (ESC/POS)'
complete -c vp -n "not __fish_seen_subcommand_from $commands" -a label -d 'Prints labels (ZPL II)'
complete -c vp -n "not __fish_seen_subcommand_from $commands" -a list -d 'Lists the commands of a stream, a line for each'
complete -c vp -n "not __fish_seen_subcommand_from $commands" -a join -d 'Joins images to one, with all their rows in order'
complete -c vp -n "not __fish_seen_subcommand_from $commands" -a help -d 'Tells of a command'
complete -c vp -n "not __fish_seen_subcommand_from $commands" -s V -l version -d 'Tells the version'
complete -c vp -s h -l help -d 'Tells what can be asked for'
complete -c vp -n '__fish_seen_subcommand_from receipt' -l width -x -a '576 384' -d 'Width of the paper'
complete -c vp -n '__fish_seen_subcommand_from receipt label list' -l whole -d 'Reads the whole language'
complete -c vp -n '__fish_seen_subcommand_from receipt label' -l font-a -r -F -d 'Glyph sheet of font A'
complete -c vp -n '__fish_seen_subcommand_from receipt' -l font-b -r -F -d 'Glyph sheet of font B'
complete -c vp -n '__fish_seen_subcommand_from list' -l lang -x -a 'receipt label' -d 'What the stream is written in'
complete -c vp -n '__fish_seen_subcommand_from list' -l offsets -d 'The place of each item before its line'
complete -c vp -n '__fish_seen_subcommand_from join' -l png -d 'A PNG file'
complete -c vp -n '__fish_seen_subcommand_from help' -f -a 'receipt label list join'
