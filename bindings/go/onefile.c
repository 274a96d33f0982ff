//go:build cgo && !libcvss

#include "../onefile/cvss.c"
