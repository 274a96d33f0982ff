package cvss

// ScoreOf is the score of a text, as Vector.Score. It is faster than Parse, and computes no other score. If the text is
// rejected, ok is false.
func ScoreOf(text string) (score Score, ok bool) { return textScore(text, 0) }

// ScoreOfIncomplete is ScoreOf, but a v3 vector may lack base metrics.
func ScoreOfIncomplete(text string) (score Score, ok bool) {
	return textScore(text, allowIncomplete)
}

func textScore(text string, flags uint32) (score Score, ok bool) {
	tenths := libraryScore(text, flags)
	if tenths == nothing {
		return 0, false
	}
	return scoreOf(int(tenths)), true
}

// Values are a vector as the values of its metrics.
type Values struct {
	Version Version
	// Score is the score with all metrics in the vector, as Vector.Score.
	Score Score
	// Nomenclature names the groups of metrics that the score counts, in v4.0.
	Nomenclature Nomenclature
	// Metrics are all metrics of the version, in the order of Metrics(Version). The Value of one that the vector lacks is empty.
	Metrics []Metric
}

// ValuesOf are the values of the vector that a text denotes. If the text is rejected, ok is false.
func ValuesOf(text string) (values Values, ok bool) { return textValues(text, 0) }

// ValuesOfIncomplete is ValuesOf, but a v3 vector may lack base metrics.
func ValuesOfIncomplete(text string) (values Values, ok bool) {
	return textValues(text, allowIncomplete)
}

func textValues(text string, flags uint32) (values Values, ok bool) {
	var own valuesStruct
	if !libraryValues(text, flags, &own) {
		return Values{}, false
	}
	values = Values{Version: versionOf(own.version), Score: scoreOf(int(own.score))}
	if own.nomenclature != nothing {
		values.Nomenclature = nomenclatureOf(own.nomenclature)
	}
	for i, metric := range typesOf(values.Version) {
		values.Metrics = append(values.Metrics, Metric{metric.Name, textOf(&own.fields[i])})
	}
	return values, true
}

// Value is the value that the vector has for the metric of this abbreviation; empty if it lacks the metric, or its version
// has none of this name.
func (v Values) Value(name string) string {
	for _, metric := range v.Metrics {
		if metric.Name == name {
			return metric.Value
		}
	}
	return ""
}
