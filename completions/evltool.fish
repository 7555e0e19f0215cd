# Completions for fish of evltool, written by .ci/words.
complete -c evltool -n __fish_use_subcommand -f
complete -c evltool -n __fish_use_subcommand -a run -d 'Serves a script from standard input'
complete -c evltool -n __fish_use_subcommand -a replay -d 'Replays a journal and shows the machine that it makes'
complete -c evltool -n __fish_use_subcommand -a threads -d 'Runs a program on two processors, each driven by a thread, and prints the journal'
complete -c evltool -n __fish_use_subcommand -a asm -d 'Assembles a source into the file of a program'
complete -c evltool -n __fish_use_subcommand -a help -d 'Prints help of a word'
complete -c evltool -n '__fish_seen_subcommand_from help' -f -a 'run replay threads asm'
complete -c evltool -s h -l help -d 'Prints help'
