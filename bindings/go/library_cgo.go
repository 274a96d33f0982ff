//go:build cgo

package cvss

// #cgo CFLAGS: -I${SRCDIR} -I${SRCDIR}/../c
// #cgo libcvss CFLAGS: -DCVSS_LIBRARY
// #cgo libcvss,amd64 LDFLAGS: ${SRCDIR}/libcvss.a
// #cgo libcvss,arm64 LDFLAGS: ${SRCDIR}/libcvss_arm64.a
// #include "library.h"
// #define GO_TEXT(text) _GoStringPtr(text), _GoStringLen(text)
// static size_t parse(_GoString_ text, uint32_t flags, void *vector, void *error, void *buffer, size_t size)
// {
//     return cvss_parse(GO_TEXT(text), flags, vector, error, buffer, size);
// }
// static int32_t score(_GoString_ text, uint32_t flags)
// {
//     return cvss_score(GO_TEXT(text), flags);
// }
// static size_t metrics(_GoString_ text, uint32_t flags, void *metrics, size_t count)
// {
//     return cvss_metrics(GO_TEXT(text), flags, metrics, count);
// }
// static bool values(_GoString_ text, uint32_t flags, void *values)
// {
//     return cvss_values(GO_TEXT(text), flags, values);
// }
// static size_t with_metrics(_GoString_ text, _GoString_ metrics, uint32_t flags, void *error, void *buffer, size_t size)
// {
//     return cvss_with_metrics(GO_TEXT(text), GO_TEXT(metrics), flags, error, buffer, size);
// }
// static size_t from_metrics(int32_t version, _GoString_ metrics, uint32_t flags, void *error, void *buffer, size_t size)
// {
//     return cvss_from_metrics(version, GO_TEXT(metrics), flags, error, buffer, size);
// }
// static size_t without_not_defined(_GoString_ text, uint32_t flags, void *error, void *buffer, size_t size)
// {
//     return cvss_without_not_defined(GO_TEXT(text), flags, error, buffer, size);
// }
// static size_t record(_GoString_ text, uint32_t flags, void *error, void *buffer, size_t size)
// {
//     return cvss_record(GO_TEXT(text), flags, error, buffer, size);
// }
// static size_t explain(_GoString_ text, uint32_t flags, void *error, void *buffer, size_t size)
// {
//     return cvss_explain(GO_TEXT(text), flags, error, buffer, size);
// }
// static size_t score_line(_GoString_ text, uint32_t flags, void *buffer, size_t size)
// {
//     return cvss_score_line(GO_TEXT(text), flags, buffer, size);
// }
// static bool numbers(int32_t version, _GoString_ metrics, void *numbers)
// {
//     return cvss_numbers(version, GO_TEXT(metrics), numbers);
// }
// static bool temporal_with_impact(_GoString_ metrics, const void *impact, int32_t *tenths)
// {
//     return cvss_temporal_with_impact(GO_TEXT(metrics), impact, tenths);
// }
import "C"

import "unsafe"

// The structs have the sizes of C's.
var (
	_ [C.sizeof_CvssVector]byte  = [unsafe.Sizeof(vectorStruct{})]byte{}
	_ [C.sizeof_CvssError]byte   = [unsafe.Sizeof(errorStruct{})]byte{}
	_ [C.sizeof_CvssMetric]byte  = [unsafe.Sizeof(metricStruct{})]byte{}
	_ [C.sizeof_CvssValues]byte  = [unsafe.Sizeof(valuesStruct{})]byte{}
	_ [C.sizeof_CvssNumbers]byte = [unsafe.Sizeof(numbersStruct{})]byte{}
	_ [C.sizeof_CvssMatch]byte   = [unsafe.Sizeof(matchStruct{})]byte{}
)

// pointer points to the bytes of a text; it is nil if there are none.
func pointer(text []byte) unsafe.Pointer {
	if len(text) == 0 {
		return nil
	}
	return unsafe.Pointer(&text[0])
}

func sizeOf(buffer []byte) C.size_t { return C.size_t(len(buffer)) }

func (own *errorStruct) pointer() unsafe.Pointer {
	own.size = C.sizeof_CvssError
	return unsafe.Pointer(own)
}

func libraryParse(text string, flags uint32, vector *vectorStruct, failure *errorStruct, buffer []byte) int {
	vector.size = C.sizeof_CvssVector
	return int(C.parse(text, C.uint32_t(flags), unsafe.Pointer(vector), failure.pointer(), pointer(buffer), sizeOf(buffer)))
}

func libraryScore(text string, flags uint32) int32 { return int32(C.score(text, C.uint32_t(flags))) }

func libraryMetrics(text string, flags uint32, metrics *[mostMetrics]metricStruct) int {
	return int(C.metrics(text, C.uint32_t(flags), unsafe.Pointer(metrics), mostMetrics))
}

func libraryValues(text string, flags uint32, values *valuesStruct) bool {
	values.size = C.sizeof_CvssValues
	return bool(C.values(text, C.uint32_t(flags), unsafe.Pointer(values)))
}

func libraryWithMetrics(text, metrics string, flags uint32, failure *errorStruct, buffer []byte) int {
	return int(C.with_metrics(text, metrics, C.uint32_t(flags), failure.pointer(), pointer(buffer), sizeOf(buffer)))
}

func libraryFromMetrics(version int32, metrics string, flags uint32, failure *errorStruct, buffer []byte) int {
	number := C.int32_t(version)
	return int(C.from_metrics(number, metrics, C.uint32_t(flags), failure.pointer(), pointer(buffer), sizeOf(buffer)))
}

func libraryWithoutNotDefined(text string, flags uint32, failure *errorStruct, buffer []byte) int {
	return int(C.without_not_defined(text, C.uint32_t(flags), failure.pointer(), pointer(buffer), sizeOf(buffer)))
}

func libraryRecord(text string, flags uint32, failure *errorStruct, buffer []byte) int {
	return int(C.record(text, C.uint32_t(flags), failure.pointer(), pointer(buffer), sizeOf(buffer)))
}

func libraryExplain(text string, flags uint32, failure *errorStruct, buffer []byte) int {
	return int(C.explain(text, C.uint32_t(flags), failure.pointer(), pointer(buffer), sizeOf(buffer)))
}

func libraryScoreLine(text string, flags uint32, buffer []byte) int {
	return int(C.score_line(text, C.uint32_t(flags), pointer(buffer), sizeOf(buffer)))
}

func libraryScoreLines(texts []byte, flags uint32, buffer []byte) (length, read int) {
	var own C.size_t
	length = int(C.cvss_score_lines(pointer(texts), sizeOf(texts), C.uint32_t(flags), pointer(buffer), sizeOf(buffer), &own))
	return length, int(own)
}

func libraryFind(text []byte, match *matchStruct) bool {
	match.size = C.sizeof_CvssMatch
	return bool(C.cvss_find(pointer(text), sizeOf(text), (*C.CvssMatch)(unsafe.Pointer(match))))
}

func librarySeverity(version, tenths int32) int32 {
	return int32(C.cvss_severity(C.int32_t(version), C.int32_t(tenths)))
}

func libraryNumbers(version int32, metrics string, numbers *numbersStruct) bool {
	numbers.size = C.sizeof_CvssNumbers
	return bool(C.numbers(C.int32_t(version), metrics, unsafe.Pointer(numbers)))
}

func libraryRounded(version int32, number *numberStruct, tenths *int32) bool {
	own := (*C.CvssNumber)(unsafe.Pointer(number))
	return bool(C.cvss_rounded(C.int32_t(version), own, (*C.int32_t)(unsafe.Pointer(tenths))))
}

func libraryTemporalWithImpact(metrics string, impact *numberStruct, tenths *int32) bool {
	return bool(C.temporal_with_impact(metrics, unsafe.Pointer(impact), (*C.int32_t)(unsafe.Pointer(tenths))))
}
