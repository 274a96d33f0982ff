//go:build !cgo

package cvss

import "sync"

// Where the parts of a memory are. The constants are where the translated functions have them.
const (
	stackAt     = 1 << 60
	textAt      = 2 << 60
	metricsAt   = 3 << 60
	constantsAt = 4 << 60
	bufferAt    = 5 << 60
	// structs are copied to the end of the stack's part
	firstAt  = stackAt + stackSize
	secondAt = firstAt + 288

	stackSize = 1 << 15
	offsets   = 1<<60 - 1
)

// A memory is what the translated functions may use in one call: the stack, with structs above it, and what they are given.
type memory struct {
	stackPointer uint64
	isInCall     uint32
	parts        [8][]byte
	own          [stackSize + 512]byte
	text         []byte
	metrics      []byte
}

// memories are those that no call uses.
var memories = sync.Pool{New: func() any { return new(memory) }}

var constantBytes = []byte(constants)

// read are the bytes from an address on, to the end of their part.
func (m *memory) read(address uint64) []byte { return m.parts[address>>60&7][address&offsets:] }

// written are those that are written: no address of the text, the metrics or the constants is.
func (m *memory) written(address uint64) []byte {
	if address>>60 != stackAt>>60 && address>>60 != bufferAt>>60 {
		panic("cvss: a write to what is only read")
	}
	return m.read(address)
}

// inMemory makes a call with these texts and this buffer.
func inMemory(text, metrics string, buffer []byte, call func(m *memory)) {
	m := memories.Get().(*memory)
	m.text = append(m.text[:0], text...)
	m.metrics = append(m.metrics[:0], metrics...)
	m.stackPointer = firstAt
	m.isInCall = 0
	m.parts = [8][]byte{1: m.own[:], 2: m.text, 3: m.metrics, 4: constantBytes, 5: buffer}
	call(m)
	m.parts = [8][]byte{}
	memories.Put(m)
}

func (m *memory) int32s(address uint64, numbers ...*int32) {
	for i, number := range numbers {
		*number = int32(m.i32_load(address + 4*uint64(i)))
	}
}

func (m *memory) uint(address uint64) uint { return uint(m.i64_load(address)) }

func (m *memory) number(address uint64) numberStruct {
	return numberStruct{int64(m.i64_load(address)), int64(m.i64_load(address + 8))}
}

func (m *memory) setNumber(address uint64, number *numberStruct) {
	m.i64_store(address, uint64(number.trillionths))
	m.i64_store(address+8, uint64(number.rest))
}

func (m *memory) failure(failure *errorStruct) {
	m.int32s(secondAt+4, &failure.kind, &failure.index, &failure.reserved)
	copy(failure.metric[:], m.read(secondAt+16))
	failure.quotedStart, failure.quotedLength = m.uint(secondAt+24), m.uint(secondAt+32)
}

func (m *memory) vector(vector *vectorStruct) {
	groups := &vector.byNomenclature
	m.int32s(firstAt+4, &vector.version, &vector.score, &vector.severity, &vector.base, &vector.baseSeverity,
		&vector.temporal, &vector.temporalSeverity, &vector.environmental, &vector.environmentalSeverity,
		&vector.nomenclature, &groups[0], &groups[1], &groups[2], &groups[3], &vector.isComplete)
}

// writing makes a call that writes a text or an error.
func writing(text, metrics string, failure *errorStruct, buffer []byte, call func(m *memory) uint64) (length int) {
	inMemory(text, metrics, buffer, func(m *memory) {
		m.i32_store(secondAt, 40)
		length = int(call(m))
		m.failure(failure)
	})
	return length
}

func libraryParse(text string, flags uint32, vector *vectorStruct, failure *errorStruct, buffer []byte) int {
	return writing(text, "", failure, buffer, func(m *memory) uint64 {
		m.i32_store(firstAt, 64)
		length := m.cvss_parse(textAt, uint64(len(text)), flags, firstAt, secondAt, bufferAt, uint64(len(buffer)))
		if m.i32_load(secondAt+4) == accepted {
			m.vector(vector)
		}
		return length
	})
}

func libraryScore(text string, flags uint32) (tenths int32) {
	inMemory(text, "", nil, func(m *memory) { tenths = int32(m.cvss_score(textAt, uint64(len(text)), flags)) })
	return tenths
}

func libraryMetrics(text string, flags uint32, metrics *[mostMetrics]metricStruct) (count int) {
	var buffer [mostMetrics * 16]byte
	inMemory(text, "", buffer[:], func(m *memory) {
		count = int(m.cvss_metrics(textAt, uint64(len(text)), flags, bufferAt, mostMetrics))
	})
	for i := range metrics {
		copy(metrics[i].name[:], buffer[16*i:])
		copy(metrics[i].value[:], buffer[16*i+8:])
	}
	return count
}

func libraryValues(text string, flags uint32, values *valuesStruct) (ok bool) {
	inMemory(text, "", nil, func(m *memory) {
		m.i32_store(firstAt, 272)
		ok = m.cvss_values(textAt, uint64(len(text)), flags, firstAt) != 0
		m.int32s(firstAt+4, &values.version, &values.score, &values.nomenclature)
		for i := range values.fields {
			copy(values.fields[i][:], m.read(firstAt+16+8*uint64(i)))
		}
	})
	return ok
}

func libraryWithMetrics(text, metrics string, flags uint32, failure *errorStruct, buffer []byte) int {
	return writing(text, metrics, failure, buffer, func(m *memory) uint64 {
		return m.cvss_with_metrics(textAt, uint64(len(text)), metricsAt, uint64(len(metrics)), flags, secondAt, bufferAt,
			uint64(len(buffer)))
	})
}

func libraryFromMetrics(version int32, metrics string, flags uint32, failure *errorStruct, buffer []byte) int {
	return writing("", metrics, failure, buffer, func(m *memory) uint64 {
		return m.cvss_from_metrics(uint32(version), metricsAt, uint64(len(metrics)), flags, secondAt, bufferAt, uint64(len(buffer)))
	})
}

func libraryWithoutNotDefined(text string, flags uint32, failure *errorStruct, buffer []byte) int {
	return writing(text, "", failure, buffer, func(m *memory) uint64 {
		return m.cvss_without_not_defined(textAt, uint64(len(text)), flags, secondAt, bufferAt, uint64(len(buffer)))
	})
}

func libraryRecord(text string, flags uint32, failure *errorStruct, buffer []byte) int {
	return writing(text, "", failure, buffer, func(m *memory) uint64 {
		return m.cvss_record(textAt, uint64(len(text)), flags, secondAt, bufferAt, uint64(len(buffer)))
	})
}

func libraryExplain(text string, flags uint32, failure *errorStruct, buffer []byte) int {
	return writing(text, "", failure, buffer, func(m *memory) uint64 {
		return m.cvss_explain(textAt, uint64(len(text)), flags, secondAt, bufferAt, uint64(len(buffer)))
	})
}

func libraryScoreLine(text string, flags uint32, buffer []byte) (length int) {
	inMemory(text, "", buffer, func(m *memory) {
		length = int(m.cvss_score_line(textAt, uint64(len(text)), flags, bufferAt, uint64(len(buffer))))
	})
	return length
}

func libraryScoreLines(texts []byte, flags uint32, buffer []byte) (length, read int) {
	inMemory("", "", buffer, func(m *memory) {
		m.parts[textAt>>60] = texts
		length = int(m.cvss_score_lines(textAt, uint64(len(texts)), flags, bufferAt, uint64(len(buffer)), firstAt))
		read = int(m.uint(firstAt))
	})
	return length, read
}

func libraryFind(text []byte, match *matchStruct) (ok bool) {
	inMemory("", "", nil, func(m *memory) {
		m.parts[textAt>>60] = text
		m.i32_store(firstAt, 32)
		m.i64_store(firstAt+8, uint64(match.next))
		ok = m.cvss_find(textAt, uint64(len(text)), firstAt) != 0
		match.next, match.offset, match.length = m.uint(firstAt+8), m.uint(firstAt+16), m.uint(firstAt+24)
	})
	return ok
}

func librarySeverity(version, tenths int32) (severity int32) {
	inMemory("", "", nil, func(m *memory) { severity = int32(m.cvss_severity(uint32(version), uint32(tenths))) })
	return severity
}

func libraryNumbers(version int32, metrics string, numbers *numbersStruct) (ok bool) {
	inMemory("", metrics, nil, func(m *memory) {
		m.i32_store(firstAt, 64)
		ok = m.cvss_numbers(uint32(version), metricsAt, uint64(len(metrics)), firstAt) != 0
		m.int32s(firstAt+4, &numbers.base, &numbers.temporal, &numbers.environmental)
		numbers.impact, numbers.exploitability = m.number(firstAt+16), m.number(firstAt+32)
		numbers.adjustedImpact = m.number(firstAt + 48)
	})
	return ok
}

func libraryRounded(version int32, number *numberStruct, tenths *int32) (ok bool) {
	inMemory("", "", nil, func(m *memory) {
		m.setNumber(firstAt, number)
		ok = m.cvss_rounded(uint32(version), firstAt, secondAt) != 0
		m.int32s(secondAt, tenths)
	})
	return ok
}

func libraryTemporalWithImpact(metrics string, impact *numberStruct, tenths *int32) (ok bool) {
	inMemory("", metrics, nil, func(m *memory) {
		m.setNumber(firstAt, impact)
		ok = m.cvss_temporal_with_impact(metricsAt, uint64(len(metrics)), firstAt, secondAt) != 0
		m.int32s(secondAt, tenths)
	})
	return ok
}
