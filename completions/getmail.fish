# Completion of getmail for fish.

# Whether the word is a path, and not a name in DIR.
function __getmail_has_path
    string match -qr '^(-r|--rcfile=)?[/~]' -- (commandline -ct)
end

# The rc files in DIR.
function __getmail_rcfiles
    set -l dir ~/.getmail
    set -l words (commandline -opc)
    for index in (seq (count $words))
        if contains -- $words[$index] -g --getmaildir; and set -q words[(math $index + 1)]
            set dir (string replace -r '^~/' "$HOME/" -- $words[(math $index + 1)])
        end
    end
    for file in $dir/*
        string match -qr -- '/(seen-[^/]*|told-[^/]*|lock|lock-[^/]*|stunnel.conf)$' $file; or string replace -- "$dir/" '' $file
    end
end

complete -c getmail -s a -l all -d 'Fetch all messages'
complete -c getmail -s d -l delete -d 'Delete from the server what was delivered'
complete -c getmail -s g -l getmaildir -r -a '(__fish_complete_directories)' -d 'Folder of the rc file and the record'
complete -c getmail -s h -l help -d 'Show the options'
complete -c getmail -s l -l dont-delete -d 'Take delete as false; delete_after still deletes'
complete -c getmail -s n -l new -d 'Fetch only what was not delivered before'
complete -c getmail -l pretend -d 'Say what would be done, and do nothing'
complete -c getmail -s q -l quiet -d 'Write no report'
complete -c getmail -n __getmail_has_path -s r -l rcfile -r -F -d 'Settings'
complete -c getmail -n 'not __getmail_has_path' -s r -l rcfile -x -a '(__getmail_rcfiles)' -d 'Settings'
complete -c getmail -l trace -d 'Show the conversation and refused calls'
complete -c getmail -l unattended -d 'For cron: tell only what is new'
complete -c getmail -s v -l verbose -d 'Report more'
complete -c getmail -s V -l version -d 'Show the version'
complete -c getmail -l why -d 'Say why a run failed'
