//go:build cgo

package cvss_test

import (
	"errors"
	"math/big"
	"testing"

	"yuntabek.example/cvss/v2"
)

func rat(text string) *big.Rat {
	number, ok := new(big.Rat).SetString(text)
	if !ok {
		panic(text)
	}
	return number
}

func TestVectorsNeedNotBeCompleteForTheirNumbers(t *testing.T) {
	metrics := []cvss.Metric{{"C", "P"}, {"I", "P"}, {"A", "P"}, {"CR", "H"}, {"IR", "H"}, {"AR", "H"}}
	numbers, err := cvss.NumbersOf(cvss.V20, metrics)
	if err != nil || numbers.Base != 2.8 || numbers.Environmental != 4.1 || numbers.Exploitability.Sign() != 0 {
		t.Error(numbers, err)
	}
	if numbers.Impact.Cmp(rat("6.44297671875")) != 0 || numbers.AdjustedImpact.Cmp(rat("8.32857186375328125")) != 0 {
		t.Error(numbers)
	}
	vector := parsed(t, "AV:N/AC:L/Au:N/C:N/I:N/A:C")
	if numbers, err := cvss.NumbersOf(vector.Version(), vector.Metrics()); err != nil || numbers.Impact.Cmp(rat("6.8706")) != 0 {
		t.Error(numbers, err)
	}
	if numbers, err := cvss.NumbersOf(cvss.V31, nil); err != nil || numbers.Base != 0 || numbers.Impact.Sign() != 0 {
		t.Error(numbers, err)
	}
	var rejected *cvss.ParseError
	for _, version := range []cvss.Version{cvss.V40, "5.0"} {
		if _, err := cvss.NumbersOf(version, nil); !errors.As(err, &rejected) || rejected.Kind != cvss.UnsupportedVersion {
			t.Error(version, err)
		}
	}
	_, err = cvss.NumbersOf(cvss.V20, []cvss.Metric{{"AV", "Q"}})
	if !errors.As(err, &rejected) || rejected.Kind != cvss.InvalidValue || rejected.Metric != "AV" || rejected.Index != 0 {
		t.Error(err)
	}
	_, err = cvss.NumbersOf(cvss.V31, []cvss.Metric{{"AV", "N"}, {"AC", "L/PR:N"}})
	if !errors.As(err, &rejected) || rejected.Kind != cvss.InvalidComponent || rejected.Index != 1 || rejected.Value != "AC:L/PR:N" {
		t.Error(err)
	}
}

func TestNumbersAreRounded(t *testing.T) {
	rows := []struct {
		version         cvss.Version
		number, rounded string
	}{
		{cvss.V20, "8.549998999999", "8.5"}, {cvss.V20, "8.549999", "8.6"}, {cvss.V20, "-0.06", "-0.1"},
		{cvss.V30, "4.000000000000000000000001", "4.1"}, {cvss.V31, "4.000004", "4"}, {cvss.V31, "4.000005", "4.1"},
	}
	for _, row := range rows {
		own, err := cvss.Rounded(rat(row.number), row.version)
		if err != nil || own.Cmp(rat(row.rounded)) != 0 {
			t.Error(row, own, err)
		}
	}
	complete := parsed(t, "AV:N/AC:L/Au:N/C:N/I:N/A:C").Metrics()
	for _, number := range []string{"1000000", "-1000000", "9000000", "1e40"} {
		own, err := cvss.Rounded(rat(number), cvss.V31)
		if err == nil || own != nil || err.Error() != "cvss: a number that is rounded is less than a million from 0" {
			t.Error(number, own, err)
		}
		for _, metrics := range [][]cvss.Metric{nil, complete} {
			own, err := cvss.TemporalWithImpact(metrics, rat(number))
			if err == nil || own != nil || err.Error() != "cvss: an impact is a number less than a million from 0" {
				t.Error(number, metrics, own, err)
			}
		}
	}
	for _, version := range []cvss.Version{cvss.V40, "5.0"} {
		for _, number := range []string{"1", "1000000"} {
			own, err := cvss.Rounded(rat(number), version)
			if err == nil || own != nil || err.Error() != "cvss: a number is rounded as V20, V30 or V31 rounds scores" {
				t.Error(version, own, err)
			}
		}
	}
	for _, version := range []cvss.Version{cvss.V20, cvss.V30, cvss.V31} {
		own, err := cvss.Rounded(nil, version)
		if err == nil || own != nil || err.Error() != "cvss: there is no number to round: the *big.Rat is nil" {
			t.Error(version, own, err)
		}
	}
	for _, metrics := range [][]cvss.Metric{nil, complete} {
		own, err := cvss.TemporalWithImpact(metrics, nil)
		if err == nil || own != nil || err.Error() != "cvss: there is no impact: the *big.Rat is nil" {
			t.Error(metrics, own, err)
		}
	}
	if own, err := cvss.TemporalWithImpact(nil, rat("1")); err != nil || own.Cmp(rat("-1.1")) != 0 {
		t.Error(own, err)
	}
	if own, err := cvss.TemporalWithImpact([]cvss.Metric{{"XX", "N"}}, rat("1")); err == nil {
		t.Error(own)
	}
}
