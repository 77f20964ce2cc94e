# Completion of debvote-publish for fish, made by docs/make-manual.
complete -c debvote-publish -f
complete -c debvote-publish -l help -d "show this help message and exit."
complete -c debvote-publish -l version -d "Print version."
complete -c debvote-publish -l poll -r -F -d "The poll file, in TOML."
complete -c debvote-publish -l ballots -r -F -d "The ballot file, with one ballot on each line: name 1,2,3."
complete -c debvote-publish -l casting -x -d "The exact name of the option that the casting vote chooses in a tie."
complete -c debvote-publish -l desks -x -a "1 2 3 4 5 6 7 8" -d "How many desks enter the ballots, 1 to 8."
complete -c debvote-publish -l language -x -a "de en es fr" -d "The language of page and letter: de, en, es or fr (default: en)."
complete -c debvote-publish -a "(__fish_complete_directories)"
