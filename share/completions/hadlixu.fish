# Completion of hadlixu, which is snapraid(1), for fish.
complete -c hadlixu -w snapraid
