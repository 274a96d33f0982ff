// Package cvss parses, normalizes and scores CVSS vectors of v2, v3.0, v3.1 and v4.0.
//
// A vector has all its base metrics, unless the caller says otherwise: Parse, and every other function that reads a
// vector, rejects a v3 vector that lacks one. Each has a twin whose name ends in Incomplete, which accepts it.
//
// The results come from a library whose functions are proved up to the call; this package computes no score itself. With cgo
// the library is compiled from one C file, or with the build tag libcvss linked from libcvss.a, for Linux on x86-64 and ARM64.
// Without cgo it is translated to Go, and slower.
package cvss

// A Vector is a parsed vector with its scores. Two vectors are equal if their canonical texts are.
//
// The zero Vector is no vector; Parse returns it with an error. It has no text, no version and no metrics, and a score
// of 0.0. IsZero reports it.
type Vector struct {
	text           string
	version        Version
	nomenclature   Nomenclature
	overall        groupScore
	base           groupScore
	temporal       groupScore
	environmental  groupScore
	byNomenclature [4]int8
	hasTemporal    bool // and an environmental score
	isComplete     bool
}

// A groupScore is a score in tenths and its severity.
type groupScore struct{ tenths, severity int8 }

func groupScoreOf(tenths, severity int32) groupScore {
	return groupScore{int8(tenths), int8(severity)}
}

func (s groupScore) score() Score { return scoreOf(int(s.tenths)) }

// vectorFrom is the vector that the library has written, with its canonical text.
func vectorFrom(own *vectorStruct, text string) Vector {
	vector := Vector{
		text:       text,
		version:    versionOf(own.version),
		overall:    groupScoreOf(own.score, own.severity),
		base:       groupScoreOf(own.base, own.baseSeverity),
		isComplete: own.isComplete != 0,
	}
	if own.nomenclature != nothing {
		vector.nomenclature = nomenclatureOf(own.nomenclature)
		for i, tenths := range own.byNomenclature {
			vector.byNomenclature[i] = int8(tenths)
		}
	}
	if own.temporal != nothing {
		vector.hasTemporal = true
		vector.temporal = groupScoreOf(own.temporal, own.temporalSeverity)
		vector.environmental = groupScoreOf(own.environmental, own.environmentalSeverity)
	}
	return vector
}

// IsZero returns whether this is the zero Vector, which is no vector.
func (v Vector) IsZero() bool { return v.text == "" }

// String is the canonical text.
func (v Vector) String() string { return v.text }

// Version is the version of the standard.
func (v Vector) Version() Version { return v.version }

// Score is the score with all metrics in the vector. In v2 and v3 it is the environmental score if an environmental
// metric is defined (has another value than X or ND), else the temporal score if a temporal one is, else the base score.
func (v Vector) Score() Score { return v.overall.score() }

// Severity is the severity of Score.
func (v Vector) Severity() Severity { return Severity(v.overall.severity) }

// BaseScore is the score of the base metrics alone: in v4.0 the score of CVSS-B.
func (v Vector) BaseScore() Score { return v.base.score() }

// BaseSeverity is the severity of BaseScore.
func (v Vector) BaseSeverity() Severity { return Severity(v.base.severity) }

// TemporalScore is the temporal score. In v4.0, which has none, ok is false.
func (v Vector) TemporalScore() (score Score, ok bool) {
	return v.temporal.score(), v.hasTemporal
}

// TemporalSeverity is the severity of TemporalScore. In v4.0 ok is false.
func (v Vector) TemporalSeverity() (severity Severity, ok bool) {
	return Severity(v.temporal.severity), v.hasTemporal
}

// EnvironmentalScore is the environmental score. In v4.0, which has none of its own, ok is false.
func (v Vector) EnvironmentalScore() (score Score, ok bool) {
	return v.environmental.score(), v.hasTemporal
}

// EnvironmentalSeverity is the severity of EnvironmentalScore. In v4.0 ok is false.
func (v Vector) EnvironmentalSeverity() (severity Severity, ok bool) {
	return Severity(v.environmental.severity), v.hasTemporal
}

// Nomenclature names the groups of metrics that the score counts, in v4.0. In v2 and v3 it is empty.
func (v Vector) Nomenclature() Nomenclature { return v.nomenclature }

// NomenclatureScore is the v4.0 score of these groups of metrics: with B the base metrics alone, which is BaseScore, and
// with BTE all metrics, which is Score. In v2 and v3, and for an unknown nomenclature, ok is false.
func (v Vector) NomenclatureScore(nomenclature Nomenclature) (score Score, ok bool) {
	for i, own := range nomenclatures[1:] {
		if own == nomenclature && v.nomenclature != "" {
			return scoreOf(int(v.byNomenclature[i])), true
		}
	}
	return 0, false
}

// IsComplete returns whether all base metrics are present. Only a v3 vector that an Incomplete function has accepted may
// lack some: they have no weight in its scores.
func (v Vector) IsComplete() bool { return v.isComplete }
