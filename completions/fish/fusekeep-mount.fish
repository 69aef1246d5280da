# fish completion of fusekeep-mount(8)
set -l options ro rw remount suid nosuid dev nodev exec noexec async sync dirsync atime noatime diratime nodiratime relatime norelatime \
    strictatime allow_other max_read= profile=plain profile=everyday size= wary groups nogroups durable ordered volatile watchdog=
complete -c fusekeep-mount -s d -d "Write a line for each request and each answer"
complete -c fusekeep-mount -s f -d "Stay in the foreground"
complete -c fusekeep-mount -s o -xa "(__fish_append , $options)" -d "Mount options"
complete -c fusekeep-mount -l status -d "Print the state of a mount"
complete -c fusekeep-mount -l json -d "Print it as JSON"
complete -c fusekeep-mount -l server -d "Print the process number of the server"
complete -c fusekeep-mount -l restart -d "Replace the server"
complete -c fusekeep-mount -l backup -rF -d "Copy a store"
complete -c fusekeep-mount -l replace -d "Over a file that is there"
complete -c fusekeep-mount -s h -l help -d "Print help"
complete -c fusekeep-mount -s V -l version -d "Print the version"
