// Pipes: nothing of the file system uses them.
