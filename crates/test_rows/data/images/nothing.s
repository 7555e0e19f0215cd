# an image of no bytes
