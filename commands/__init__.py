"""What is installed beside the program. Each command has a folder, with its script and the modules of it alone:

    cc/        crashbpf-cc compiles a checker written in C
    each/      crashbpf-each gives each image of a log to a program
    test/      crashbpf-test says which sync a program lacks, with what record/ and each/ have
    record/    crashbpf-record records what a program writes, crashbpf-files runs a program on the files of an image
    shared/    what several of them do: how they end, how one runs a program that judges, what the folder of a recording knows of itself

A script finds modules in one way. It puts the folder above this one in front of Python's path, and names each module from
there, as `commands.each.stream`. In a package that folder is share/crashbpf.
"""
