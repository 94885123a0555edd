# Completion of blossom for fish.
# generated: kinds
set -g blossom_kinds perfect match bmatch capmatch ffactor tjoin postman path interval oddpath evenpath bottleneck gallai
set -g blossom_trials perfect match bmatch capmatch ffactor tjoin postman path
# end
complete -c blossom -f
complete -c blossom -n __fish_use_subcommand -a solve -d 'solve an instance'
complete -c blossom -n __fish_use_subcommand -a check -d 'check a certificate'
complete -c blossom -n __fish_use_subcommand -a trial -d 'generate, solve and check an instance'
complete -c blossom -n '__fish_seen_subcommand_from solve check' -a "$blossom_kinds"
complete -c blossom -n '__fish_seen_subcommand_from trial' -a "$blossom_trials"
complete -c blossom -n '__fish_seen_subcommand_from solve' -l brief -d 'without the certificate'
