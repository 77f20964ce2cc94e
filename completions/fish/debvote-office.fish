# Completion of debvote-office for fish, made by docs/make-manual.
complete -c debvote-office -f
complete -c debvote-office -l help -d "show this help message and exit."
complete -c debvote-office -l version -d "Print version."
complete -c debvote-office -l language -x -a "de en es fr" -d "The language of the page: de, en, es or fr (default: that of the election)."
complete -c debvote-office -l port -x -d "The port on this computer (default: any that is free)."
complete -c debvote-office -l no-browser -d "Print the address of the page, and open no browser."
complete -c debvote-office -a "(__fish_complete_directories)"
