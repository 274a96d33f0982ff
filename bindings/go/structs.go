package cvss

// The structs of cvss.h, with the same fields, and what they are filled with.

type vectorStruct struct {
	size                                 uint32
	version                              int32
	score, severity                      int32
	base, baseSeverity                   int32
	temporal, temporalSeverity           int32
	environmental, environmentalSeverity int32
	nomenclature                         int32
	byNomenclature                       [4]int32
	isComplete                           int32
}

type errorStruct struct {
	size                      uint32
	kind, index, reserved     int32
	metric                    [8]byte
	quotedStart, quotedLength uint
}

type metricStruct struct{ name, value [8]byte }

type valuesStruct struct {
	size                         uint32
	version, score, nomenclature int32
	fields                       [mostMetrics][8]byte
}

type numberStruct struct{ trillionths, rest int64 }

type numbersStruct struct {
	size                                   uint32
	base, temporal, environmental          int32
	impact, exploitability, adjustedImpact numberStruct
}

type matchStruct struct {
	size                 uint32
	next, offset, length uint
}

const (
	nothing         = -1
	accepted        = 0
	allowIncomplete = 1
	mostMetrics     = 32
)

// textOf is the text in a field that is filled up with bytes 0.
func textOf(field *[8]byte) string {
	length := 0
	for length < len(field) && field[length] != 0 {
		length++
	}
	return string(field[:length])
}
