package cvss

import (
	"errors"
	"math/big"
)

var (
	trillion = big.NewInt(1_000_000_000_000)
	units    = new(big.Int).Mul(trillion, trillion)
	// million is a million in trillionths.
	million = big.NewInt(1_000_000_000_000_000_000)
)

// Numbers are the scores of a vector of v2 or v3, and its sub-scores, which are exact: of v2 Impact, Exploitability and
// AdjustedImpact; of v3 ISS, before the scope counts, Exploitability and MISS.
type Numbers struct {
	Base, Temporal, Environmental          Score
	Impact, Exploitability, AdjustedImpact *big.Rat
}

// NumbersOf are those of the vector of V20, V30 or V31 with these metrics, in any order. Any metric may be missing; a
// missing base metric has no weight. The error is a *ParseError, and for V40 one of kind UnsupportedVersion.
func NumbersOf(version Version, metrics []Metric) (Numbers, error) {
	var own numbersStruct
	if !libraryNumbers(numberOf(version), componentsOf(metrics), &own) {
		return Numbers{}, metricError(version, metrics)
	}
	return Numbers{
		scoreOf(int(own.base)), scoreOf(int(own.temporal)), scoreOf(int(own.environmental)),
		ratOf(own.impact), ratOf(own.exploitability), ratOf(own.adjustedImpact),
	}, nil
}

// metricError is why metrics have no numbers in a version.
func metricError(version Version, metrics []Metric) error {
	if numberOf(version) == 0 || version == V40 {
		return unsupported(version)
	}
	_, err := FromMetrics(version, metrics)
	return err
}

// Rounded is a number rounded to tenths as V20, V30 or V31 rounds scores. The error is for another version, and for a number
// that is nil, or a million or more from 0.
func Rounded(number *big.Rat, version Version) (*big.Rat, error) {
	if numberOf(version) == 0 || version == V40 {
		return nil, errors.New("cvss: a number is rounded as V20, V30 or V31 rounds scores")
	}
	if number == nil {
		return nil, errors.New("cvss: there is no number to round: the *big.Rat is nil")
	}
	own, ok := numberFrom(number)
	var tenths int32
	if !ok || !libraryRounded(numberOf(version), &own, &tenths) {
		return nil, errors.New("cvss: a number that is rounded is less than a million from 0")
	}
	return big.NewRat(int64(tenths), 10), nil
}

// TemporalWithImpact is the temporal score of the vector of V20 with these metrics, as of NumbersOf, and with an impact in
// place of its own. It may be below 0. An impact that is nil, or a million or more from 0, is an error.
func TemporalWithImpact(metrics []Metric, impact *big.Rat) (*big.Rat, error) {
	if impact == nil {
		return nil, errors.New("cvss: there is no impact: the *big.Rat is nil")
	}
	own, ok := numberFrom(impact)
	if !ok {
		return nil, errors.New("cvss: an impact is a number less than a million from 0")
	}
	var tenths int32
	if !libraryTemporalWithImpact(componentsOf(metrics), &own, &tenths) {
		return nil, metricError(V20, metrics)
	}
	return big.NewRat(int64(tenths), 10), nil
}

func ratOf(number numberStruct) *big.Rat {
	count := new(big.Int).Mul(big.NewInt(number.trillionths), trillion)
	return new(big.Rat).SetFrac(count.Add(count, big.NewInt(number.rest)), units)
}

// numberFrom is the library's number for a number, whose decimals after the 24th are cut off. One that is a million or more
// from 0 has none.
func numberFrom(number *big.Rat) (own numberStruct, ok bool) {
	count := new(big.Int).Mul(number.Num(), units)
	count.Quo(count, number.Denom())
	trillionths, rest := new(big.Int).QuoRem(count, trillion, new(big.Int))
	own = numberStruct{trillionths.Int64(), rest.Int64()}
	return own, trillionths.CmpAbs(million) < 0
}
