#error "fcntl.h isn't here: there are no files"
