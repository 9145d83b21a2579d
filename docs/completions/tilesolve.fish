# Completions of tilesolve for fish: put this file into a folder of $fish_complete_path.

complete -c tilesolve -f
complete -c tilesolve -s h -l help -d 'Print help'
complete -c tilesolve -n __fish_use_subcommand -s V -l version -d 'Print version'
complete -c tilesolve -n __fish_use_subcommand -a solve -d 'Report an optimal plan for each board'
complete -c tilesolve -n __fish_use_subcommand -a check -d 'Check a certificate'
complete -c tilesolve -n __fish_use_subcommand -a show -d 'Draw the boards of a certificate'
complete -c tilesolve -n __fish_use_subcommand -a upgrade -d 'Rewrite a certificate in version 2'
complete -c tilesolve -n __fish_use_subcommand -a replay -d 'Run the steps of a parallel search one by one'
complete -c tilesolve -n __fish_use_subcommand -a boards -d 'List boards to solve'

set -l sides '__fish_seen_subcommand_from solve replay boards'
complete -c tilesolve -n $sides -x -l rows -a '2 3 4 5' -d 'Rows of each board'
complete -c tilesolve -n $sides -x -l cols -a '2 3 4 5' -d 'Columns of each board'
complete -c tilesolve -n $sides -x -l goal -d 'Tiles of the goal, row by row'

set -l search '__fish_seen_subcommand_from solve replay'
complete -c tilesolve -n $search -x -l cost -a 'unit face' -d 'Cost of a move'
complete -c tilesolve -n $search -x -l groups -a none -d 'Groups of tiles, each with a pattern database'
complete -c tilesolve -n $search -l fold -d 'Fold the pattern databases'
complete -c tilesolve -n $search -x -l workers -d 'Number of workers'
complete -c tilesolve -n $search -x -l spread -a 'zobrist blank abstract' -d 'How boards are divided among workers'
complete -c tilesolve -n $search -x -l limit -d 'Maximum number of boards to expand for each line'

set -l solve '__fish_seen_subcommand_from solve'
complete -c tilesolve -n $solve -l cert -d 'Write the certificate of the first board'
complete -c tilesolve -n $solve -l progress -d 'Print how far the search is'
complete -c tilesolve -n $solve -l stats -d 'Print figures of each search'

set -l show '__fish_seen_subcommand_from show'
complete -c tilesolve -n $show -x -l width -d 'Columns of the text'
complete -c tilesolve -n $show -l svg -d 'Write an SVG file'
complete -c tilesolve -n $show -x -l seconds -d 'Seconds of each move in an SVG file'

set -l boards '__fish_seen_subcommand_from boards'
complete -c tilesolve -n $boards -x -l count -d 'Number of boards'
complete -c tilesolve -n $boards -x -l seed -d 'Seed of the draws'
complete -c tilesolve -n $boards -x -l moves -d 'Moves of the walk to each board'
complete -c tilesolve -n $boards -l all -d 'List all boards with a plan'
