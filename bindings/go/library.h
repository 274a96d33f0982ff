/* The library's header. With the build tag libcvss an error says what is missing; the names of files are those of library_cgo.go. */
#if defined(CVSS_LIBRARY) && defined(__has_include)
#if !defined(__linux__) || !(defined(__x86_64__) || defined(__aarch64__))
#error "libcvss is built for Linux on x86-64 and ARM64 alone: build without the tag libcvss"
#elif defined(__x86_64__) && !__has_include("libcvss.a")
#error "libcvss.a is missing: use share/yuntabek/go of the unpacked archive in dist/, run bindings/build, or build without the tag libcvss"
#elif defined(__aarch64__) && !__has_include("libcvss_arm64.a")
#error "libcvss_arm64.a is missing: use share/yuntabek/go of the unpacked archive in dist/, run bindings/build, or build without the tag libcvss"
#endif
#endif
#include "cvss.h"
