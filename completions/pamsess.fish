# Completion of pamsess and the scripts beside it for fish: commands, directories, the services and the users below ROOT.
# In a checkout: source completions/pamsess.fish; then ./pamsess is completed, too.

# The words that were typed before this one, the command's name left out.
function __pamsess_words
    set -l words (commandline -opc)
    test (count $words) -lt 2; or printf '%s\n' $words[2..-1]
end

# Whether so many words were typed, the first of them one of the others that are given.
function __pamsess_at
    set -l words (__pamsess_words)
    test (count $words) -eq $argv[1]; or return 1
    test (count $argv) -eq 1; or contains -- $words[1] $argv[2..-1]
end

# Whether so many words were typed after --json, or if there is none, in all, the first of them --compare.
function __pamsess_compares_at
    set -l words (__pamsess_words)
    test "$words[1]" = --json; and set -e words[1]
    test (count $words) -eq $argv[1]; and test "$words[1]" = --compare
end

# The words of pamsess-explain after its options, whether there are so many, and which of all words the first of them is.
function __pamsess_explained
    set -l words (__pamsess_words)
    contains -- "$words[1]" --html --json; and set -e words[1]
    test "$words[1]" = --script; and set words $words[3..-1]
    test (count $words) -eq 0; or printf '%s\n' $words
end

function __pamsess_explains_at
    test (count (__pamsess_explained)) -eq $argv[1]
end

function __pamsess_explained_root
    math (count (__pamsess_words)) - (count (__pamsess_explained)) + 1
end

# The root is the word with this number.
function __pamsess_services
    set -l words (__pamsess_words)
    set -l root (string replace -r '^~' $HOME -- $words[$argv[1]])
    for file in $root/etc/pam.d/*
        test -f $file; and basename $file
    end
end

function __pamsess_users
    set -l words (__pamsess_words)
    set -l root (string replace -r '^~' $HOME -- $words[$argv[1]])
    test -r $root/etc/passwd; and string replace -r ':.*' '' <$root/etc/passwd
end

complete -c pamsess -f
complete -c pamsess -n '__pamsess_at 0' -a run -d 'make the calls of a script'
complete -c pamsess -n '__pamsess_at 0' -a check -d 'print the stacks of a service, or its first fault'
complete -c pamsess -n '__pamsess_at 0' -a login -d 'make the calls of a login'
complete -c pamsess -n '__pamsess_at 0' -a generate -d 'make a random service from a seed'
complete -c pamsess -n '__pamsess_at 0' -a tally -d 'list the failed logins of a user'
complete -c pamsess -n '__pamsess_at 0' -a audit -d 'check a report against a service'
complete -c pamsess -n '__pamsess_at 0' -a wire -d 'serve a front end over a pipe'
complete -c pamsess -n '__pamsess_at 1 run check login tally audit wire' -a '(__fish_complete_directories)'
complete -c pamsess -n '__pamsess_at 2 check login audit' -a '(__pamsess_services 2)'
complete -c pamsess -n '__pamsess_at 2 tally' -a '(__pamsess_users 2)'
complete -c pamsess -n '__pamsess_at 3 login' -a '(__pamsess_users 2)'

for name in check-all explain stand-in try ways what-if
    complete -c pamsess-$name -f
    complete -c pamsess-$name -n '__pamsess_at 0' -a '(__fish_complete_directories)'
end
for name in try what-if
    complete -c pamsess-$name -n '__pamsess_at 1' -a '(__pamsess_services 1)'
end
complete -c pamsess-what-if -n '__pamsess_at 2' -a '(__pamsess_users 1)'
complete -c pamsess-explain -n '__pamsess_at 0' -l html -d 'write a page'
complete -c pamsess-explain -n '__pamsess_at 0' -l json -d 'print an object'
complete -c pamsess-explain -n '__pamsess_at 0; or __pamsess_at 1 --html --json' -l script -r -F -d 'the script that was run'
complete -c pamsess-explain -n '__pamsess_explains_at 0; and not __pamsess_at 0' -a '(__fish_complete_directories)'
complete -c pamsess-explain -n '__pamsess_explains_at 1' -a '(__pamsess_services (__pamsess_explained_root))'
complete -c pamsess-explain -n '__pamsess_explains_at 2' -a '(__pamsess_users (__pamsess_explained_root))'
complete -c pamsess-ways -n '__pamsess_at 0' -l json -d 'print an object'
complete -c pamsess-ways -n '__pamsess_at 0; or __pamsess_at 1 --json' -l compare -d 'compare two directories'
complete -c pamsess-ways -n '__pamsess_at 1 --json; or __pamsess_compares_at 1; or __pamsess_compares_at 2' -a '(__fish_complete_directories)'
complete -c pamsess-ways -n '__pamsess_at 1; and not __pamsess_at 1 --json --compare' -a '(__pamsess_services 1)'
complete -c pamsess-ways -n '__pamsess_at 2 --json; and not __pamsess_compares_at 1' -a '(__pamsess_services 2)'
complete -c pamsess-ways -n '__pamsess_at 3 --compare' -a '(__pamsess_services 2)'
complete -c pamsess-ways -n '__pamsess_at 4 --json; and __pamsess_compares_at 3' -a '(__pamsess_services 3)'
complete -c pamsess-stand-in -n '__pamsess_at 1' -a '(__fish_complete_directories)'
complete -c pamsess-stand-in -n '__pamsess_at 2' -a '(__pamsess_users 1)'
complete -c pamsess-try -n '__pamsess_at 2' -a '(__pamsess_users 1)'
complete -c pamsess-try -n 'not __pamsess_at 0; and not __pamsess_at 1; and not __pamsess_at 2' -a 'authenticate acct_mgmt setcred open_session close_session chauthtok'
