package cvss_test

import (
	"reflect"
	"strings"
	"testing"

	"yuntabek.example/cvss/v2"
)

// The version, nomenclature, score and metrics of each stored line are those of the second implementation in reference/.
func TestTextsHaveTheirValues(t *testing.T) {
	facts := lines(t, "tests/stored/facts")
	for i, text := range storedLines(t, "stdin") {
		values, ok := cvss.ValuesOfIncomplete(text)
		score, isScored := cvss.ScoreOfIncomplete(text)
		if isScored != ok || score != values.Score {
			t.Errorf("%q: %v, %v", text, score, isScored)
		}
		got := []string{string(values.Version), orDash(string(values.Nomenclature)), values.Score.String()}
		for i, metric := range cvss.Metrics(values.Version) {
			if values.Metrics[i].Name != metric.Name || values.Metrics[i].Value != values.Value(metric.Name) {
				t.Errorf("%q: %v", text, values.Metrics)
			}
			if values.Metrics[i].Value != "" {
				got = append(got, metric.Name+"="+values.Metrics[i].Value)
			}
		}
		words := strings.Split(facts[i], " ")
		// a rejected text has the number of a kind in place of the canonical text
		if isRejected := len(words[0]) == 1; isRejected == ok {
			t.Errorf("%q: %v", text, ok)
		} else if ok && strings.Join(got, " ") != strings.Join(append([]string{words[1], words[2], words[4]}, words[16:]...), " ") {
			t.Errorf("%q: %v, and not %v", text, got, words)
		}
		testIncompleteValues(t, text, values, ok && words[3] == "complete")
	}
}

// Only a complete vector has values without the permission for incomplete ones, and they are the same.
func testIncompleteValues(t *testing.T, text string, expected cvss.Values, isComplete bool) {
	t.Helper()
	values, ok := cvss.ValuesOf(text)
	score, isScored := cvss.ScoreOf(text)
	if ok != isComplete || isScored != isComplete {
		t.Errorf("%q: %v, %v", text, ok, isScored)
	}
	if isComplete && (!reflect.DeepEqual(values, expected) || score != expected.Score) {
		t.Errorf("%q: %v and %v, and not %v", text, values, score, expected)
	}
}

func TestTextsWithoutAVectorHaveNoValues(t *testing.T) {
	for _, text := range []string{"", "AV:N", "AV:\xff", "CVSS:3.1/AV:N"} {
		if values, ok := cvss.ValuesOf(text); ok || len(values.Metrics) != 0 || values.Value("AV") != "" {
			t.Errorf("%q: %v", text, values)
		}
		if score, ok := cvss.ScoreOf(text); ok || score != 0 {
			t.Errorf("%q: %v", text, score)
		}
	}
	if values, _ := cvss.ValuesOfIncomplete("CVSS:3.1/AV:N"); values.Value("AV") != "N" || values.Value("PR")+values.Value("av") != "" {
		t.Error(values)
	}
}
