fence.i
