package cvss

// Record is the vector's record: the JSON object of FIRST's schema of its version, without spaces. As the schema has it,
// baseScore of v4.0 is the score of all metrics in the vector.
func (v Vector) Record() []byte {
	return object(func(failure *errorStruct, buffer []byte) int {
		return libraryRecord(v.text, allowIncomplete, failure, buffer)
	})
}

// Explain shows how the score is computed: a JSON object, without spaces. For v2 and v3 it has the weights, the sub-scores
// and the number before the rounding of each score; for v4.0 the values that count, the MacroVector with its listed score,
// the share of each group of metrics in what is subtracted from it, and the number before the rounding. A number is less
// than 10^-6 from the exact one. It is exact if that has at most seven decimals, except for those of v3 with a changed
// scope, which have a power.
func (v Vector) Explain() []byte {
	return object(func(failure *errorStruct, buffer []byte) int {
		return libraryExplain(v.text, allowIncomplete, failure, buffer)
	})
}

// object is the JSON object that a call writes. The zero Vector has none.
func object(call func(failure *errorStruct, buffer []byte) int) []byte {
	failure := new(errorStruct)
	object := written(make([]byte, 1<<11), func(buffer []byte) int { return call(failure, buffer) })
	if failure.kind != accepted {
		return nil
	}
	return object
}
