#error "<evl/atomic.h> isn't here: RV64I has no atomic instructions; guard the variable by an evl_mutex"
