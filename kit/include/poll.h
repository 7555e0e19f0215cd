#error "poll.h isn't here: there are no files to poll"
