/* oob_recvmsg oob_sendmsg */
#error "<evl/net/socket.h> isn't here: there is no networking"
