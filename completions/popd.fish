# Completion of popd for fish.
complete -c popd -l connections -x -d 'End after so many connections'
complete -c popd -s h -l help -d 'Show the options'
complete -c popd -l listen -x -d 'Serve connections to this address'
complete -c popd -l rehearse -d 'Serve two small messages over standard input and output'
complete -c popd -l trace -d 'Show conversations and refused calls'
complete -c popd -l verbose -d 'Tell where it listens, logins, refused ones and removals'
complete -c popd -s V -l version -d 'Show the version'
