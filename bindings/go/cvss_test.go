package cvss_test

import (
	"bytes"
	"encoding/json"
	"errors"
	"fmt"
	"os"
	"strings"
	"sync"
	"testing"

	"yuntabek.example/cvss/v2"
)

// The lines of a file of the repository.
func lines(t *testing.T, path string) []string {
	t.Helper()
	text, err := os.ReadFile("../../" + path)
	if err != nil || len(text) == 0 {
		t.Fatalf("%s: %v", path, err)
	}
	return strings.Split(strings.TrimSuffix(string(text), "\n"), "\n")
}

// The stored lines without a mark, which come first, as many as there are facts.
func storedLines(t *testing.T, name string) []string {
	t.Helper()
	stored := lines(t, "crates/test_vectors/"+name)
	count := len(lines(t, "tests/stored/facts"))
	if len(stored) < count {
		t.Fatalf("%d lines in %s, and %d facts", len(stored), name, count)
	}
	return stored[:count]
}

func scored(score cvss.Score, isScored bool, severity cvss.Severity, hasSeverity bool) string {
	if isScored != hasSeverity {
		return "a score or a severity is missing"
	}
	if !isScored {
		return "- -"
	}
	return fmt.Sprintf("%v %v", score, severity)
}

var allNomenclatures = []cvss.Nomenclature{cvss.B, cvss.BE, cvss.BT, cvss.BTE}

// scoresOf are the facts of tests/stored/facts about scores.
func scoresOf(vector cvss.Vector) []string {
	temporal, hasTemporal := vector.TemporalScore()
	temporalSeverity, hasTemporalSeverity := vector.TemporalSeverity()
	environmental, hasEnvironmental := vector.EnvironmentalScore()
	environmentalSeverity, hasEnvironmentalSeverity := vector.EnvironmentalSeverity()
	facts := []string{
		scored(vector.Score(), true, vector.Severity(), true),
		scored(vector.BaseScore(), true, vector.BaseSeverity(), true),
		scored(temporal, hasTemporal, temporalSeverity, hasTemporalSeverity),
		scored(environmental, hasEnvironmental, environmentalSeverity, hasEnvironmentalSeverity),
	}
	for _, nomenclature := range allNomenclatures {
		score, ok := vector.NomenclatureScore(nomenclature)
		if !ok {
			facts = append(facts, "-")
			continue
		}
		facts = append(facts, score.String())
	}
	return facts
}

// orDash is a text, or a dash for an empty one.
func orDash(text string) string {
	if text == "" {
		return "-"
	}
	return text
}

// facts are what is known of a text, as tests/stored/facts.py prints it.
func facts(text string, parse func(string) (cvss.Vector, error)) string {
	vector, err := parse(text)
	var rejected *cvss.ParseError
	if errors.As(err, &rejected) {
		return fmt.Sprintf("%d %s %v", rejected.Kind, orDash(rejected.Metric), rejected)
	}
	complete := "incomplete"
	if vector.IsComplete() {
		complete = "complete"
	}
	facts := []string{vector.String(), string(vector.Version()), orDash(string(vector.Nomenclature())), complete}
	facts = append(facts, scoresOf(vector)...)
	for _, metric := range vector.Metrics() {
		facts = append(facts, metric.Name+"="+metric.Value)
	}
	return strings.Join(facts, " ")
}

// The errors of the incomplete vectors of v3 were written by hand. Parse rejects these and no others that ParseIncomplete
// accepts.
func TestIncompleteVectorsAreRejected(t *testing.T) {
	for _, row := range lines(t, "tests/stored/incomplete") {
		text, expected, _ := strings.Cut(row, " ")
		if got := facts(text, cvss.Parse); got != expected {
			t.Errorf("%q: %q, and not %q", text, got, expected)
		}
		if vector, err := cvss.ParseIncomplete(text); err != nil || vector.IsComplete() {
			t.Errorf("%q: %v, %v", text, vector, err)
		}
	}
	for _, text := range storedLines(t, "stdin") {
		incomplete, complete := facts(text, cvss.ParseIncomplete), facts(text, cvss.Parse)
		if (complete == incomplete) == strings.Contains(incomplete, " incomplete ") {
			t.Errorf("%q: %q", text, complete)
		}
	}
}

// Each function that reads a text rejects an incomplete vector, and its twin accepts it. The score is that of the second
// implementation in reference/.
func TestEachFunctionHasATwinForIncompleteVectors(t *testing.T) {
	const text, whole = "CVSS:3.1/AV:N/C:H", "CVSS:3.1/AV:N/C:H 3.6 low"
	const rejected = "missing mandatory CVSSv3 AC (Attack Complexity) metric"
	metrics := []cvss.Metric{{Name: "AV", Value: "N"}, {Name: "C", Value: "H"}}
	isAccepted := func(vector cvss.Vector, err error) bool {
		return err == nil && vector.String() == text && !vector.IsComplete()
	}
	isRejected := func(vector cvss.Vector, err error) bool {
		return vector.IsZero() && err != nil && err.Error() == rejected
	}
	found, foundIncomplete := cvss.Find([]byte(text)), cvss.FindIncomplete([]byte(text))
	score, isScored := cvss.ScoreOf(text)
	scoreIncomplete, isScoredIncomplete := cvss.ScoreOfIncomplete(text)
	values, hasValues := cvss.ValuesOf(text)
	valuesIncomplete, hasValuesIncomplete := cvss.ValuesOfIncomplete(text)
	for name, ok := range map[string]bool{
		"Parse":                 isRejected(cvss.Parse(text)),
		"ParseIncomplete":       isAccepted(cvss.ParseIncomplete(text)),
		"FromMetrics":           isRejected(cvss.FromMetrics(cvss.V31, metrics)),
		"FromMetricsIncomplete": isAccepted(cvss.FromMetricsIncomplete(cvss.V31, metrics)),
		"Find":                  len(found) == 1 && isRejected(found[0].Vector, found[0].Err),
		"FindIncomplete":        len(foundIncomplete) == 1 && isAccepted(foundIncomplete[0].Vector, foundIncomplete[0].Err),
		"ScoreOf":               !isScored && score == 0,
		"ScoreOfIncomplete":     isScoredIncomplete && scoreIncomplete == 3.6,
		"ValuesOf":              !hasValues && values.Value("AV") == "",
		"ValuesOfIncomplete":    hasValuesIncomplete && valuesIncomplete.Value("AV") == "N",
		"ScoreLine":             cvss.ScoreLine(text) == "error: "+rejected,
		"ScoreLineIncomplete":   cvss.ScoreLineIncomplete(text) == whole,
		"ScoreLines":            string(cvss.ScoreLines([]byte(text+"\n"))) == "error: "+rejected+"\n",
		"ScoreLinesIncomplete":  string(cvss.ScoreLinesIncomplete([]byte(text+"\n"))) == whole+"\n",
	} {
		if !ok {
			t.Errorf("%s of %s", name, text)
		}
	}
}

// A vector that was accepted as incomplete stays so.
func TestAnIncompleteVectorCanBeUsed(t *testing.T) {
	vector, err := cvss.ParseIncomplete("CVSS:3.1/AV:N/C:H/E:X")
	if err != nil {
		t.Fatal(err)
	}
	if own, err := vector.WithMetrics([]cvss.Metric{{Name: "E", Value: "P"}}); err != nil || own.String() != "CVSS:3.1/AV:N/C:H/E:P" {
		t.Errorf("%v, %v", own, err)
	}
	if own, err := vector.WithMetrics(nil); err != nil || own != vector {
		t.Errorf("%v, %v", own, err)
	}
	if own := vector.WithoutNotDefined(); own.String() != "CVSS:3.1/AV:N/C:H" || own.IsComplete() {
		t.Errorf("%v", own)
	}
	if len(vector.Metrics()) != 3 || len(vector.Described()) != 3 {
		t.Errorf("%v", vector.Metrics())
	}
	for _, object := range [][]byte{vector.Record(), vector.Explain()} {
		if !bytes.Contains(object, []byte(`"`+vector.String()+`"`)) {
			t.Errorf("%s", object)
		}
	}
}

// The facts and the lines are those of the second implementation in reference/.
func TestStoredLines(t *testing.T) {
	expected := lines(t, "tests/stored/facts")
	scoreLines := lines(t, "tests/stored/score_lines")
	given := storedLines(t, "stdin")
	if len(scoreLines) != len(given) {
		t.Fatalf("%d lines of %d", len(scoreLines), len(given))
	}
	all := string(cvss.ScoreLines([]byte(strings.Join(given, "\n") + "\n")))
	if all != strings.Join(scoreLines, "\n")+"\n" {
		t.Error("the lines of all texts in one call are others")
	}
	var threads sync.WaitGroup
	for thread := 0; thread < 4; thread++ {
		threads.Add(1)
		go func() {
			defer threads.Done()
			for i, text := range given {
				if got := facts(text, cvss.ParseIncomplete); got != expected[i] {
					t.Errorf("%q: %q, and not %q", text, got, expected[i])
				}
				if got := cvss.ScoreLine(text); got != scoreLines[i] {
					t.Errorf("%q: %q, and not %q", text, got, scoreLines[i])
				}
			}
		}()
	}
	threads.Wait()
}

// A line of an incomplete vector has its score if that is allowed, and other lines are the same.
func TestStoredLinesMayBeIncomplete(t *testing.T) {
	scoreLines, given := lines(t, "tests/stored/score_lines"), storedLines(t, "stdin")
	all := strings.Split(string(cvss.ScoreLinesIncomplete([]byte(strings.Join(given, "\n")+"\n"))), "\n")
	for i, row := range lines(t, "tests/stored/facts") {
		expected := scoreLines[i]
		if words := strings.Split(row, " "); len(words) > 5 && words[3] == "incomplete" {
			expected = strings.Join([]string{words[0], words[4], words[5]}, " ")
		}
		if got := cvss.ScoreLineIncomplete(given[i]); got != expected || all[i] != expected {
			t.Errorf("%q: %q and %q, and not %q", given[i], got, all[i], expected)
		}
	}
}

// The scores of v2 are those of the CVSS v2 guide, section 3.3.1, and the others those of the second implementation in
// reference/.
func TestScoresCountAllMetrics(t *testing.T) {
	for _, row := range []struct {
		text        string
		score, base cvss.Score
	}{
		{stored, 9.8, 9.8},
		{stored + "/E:X/RL:X/CR:X", 9.8, 9.8},
		{stored + "/E:U/RL:O/RC:C", 8.5, 9.8},
		{stored + "/E:U/RL:O/RC:C/MAV:P", 5.9, 9.8},
		{stored + "/MAV:P", 6.8, 9.8},
		{"AV:N/AC:L/Au:N/C:N/I:N/A:C/E:F/RL:OF/RC:C", 6.4, 7.8},
		{"AV:N/AC:L/Au:N/C:N/I:N/A:C/E:F/RL:OF/RC:C/CDP:H/TD:H/CR:M/IR:M/AR:H", 9.2, 7.8},
		{"CVSS:4.0/AV:N/AC:L/AT:N/PR:N/UI:N/VC:H/VI:H/VA:H/SC:N/SI:N/SA:N/E:U", 8.1, 9.3},
	} {
		vector := parsed(t, row.text)
		score, ok := cvss.ScoreOf(row.text)
		values, hasValues := cvss.ValuesOf(row.text)
		if vector.Score() != row.score || vector.BaseScore() != row.base || score != row.score || !ok ||
			values.Score != row.score || !hasValues {
			t.Errorf("%s: %v, %v, %v, %v", row.text, vector.Score(), vector.BaseScore(), score, values.Score)
		}
	}
}

func TestTextsThatAreNotUTF8AreRejected(t *testing.T) {
	_, err := cvss.Parse("AV:\xff")
	var rejected *cvss.ParseError
	if !errors.As(err, &rejected) || rejected.Kind != cvss.NotUTF8 {
		t.Errorf("%v", err)
	}
	if got := cvss.ScoreLine("AV:\xff"); got != "error: not UTF-8" {
		t.Errorf("%q", got)
	}
}

// An error has the part of the text that its message quotes, as the message has it.
func TestErrorsHaveTheRejectedValue(t *testing.T) {
	for _, row := range []struct {
		text          string
		kind          cvss.Kind
		metric, value string
	}{
		{"AV/N", cvss.InvalidComponent, "", "AV"}, {"CVS:3.1/AV:N", cvss.InvalidPrefix, "", "CVS"},
		{"CVSS:3.2/AV:N", cvss.UnsupportedVersion, "", "3.2"}, {"CVSS:3.1/xx:N", cvss.UnknownMetric, "", "XX"},
		{"CVSS:3.1/av:a`b", cvss.InvalidValue, "AV", "A`B"}, {"AV:/AC:L", cvss.InvalidValue, "AV", ""},
		{"CVSS:3.1/AV:N/av:n", cvss.DuplicateMetric, "AV", ""}, {"AV:N/AC:L", cvss.MissingMetric, "Au", ""},
		{"CVSS:3.1/AV:N/AC:L", cvss.MissingMetric, "PR", ""}, {"CVSS:3.1/é:N", cvss.UnknownMetric, "", "é"},
		{"AV:\xff", cvss.NotUTF8, "", ""}, {"", cvss.InvalidComponent, "", ""},
		{strings.Repeat("x", 5000), cvss.InvalidComponent, "", strings.Repeat("x", 5000)},
	} {
		_, err := cvss.Parse(row.text)
		var rejected *cvss.ParseError
		if !errors.As(err, &rejected) {
			t.Errorf("%q: %v", row.text, err)
			continue
		}
		if rejected.Kind != row.kind || rejected.Metric != row.metric || rejected.Value != row.value || rejected.Index != -1 {
			t.Errorf("%q: %#v", row.text, rejected)
		}
		if !strings.Contains(rejected.Message, "`"+row.value+"`") && row.value != "" && row.kind != cvss.UnsupportedVersion {
			t.Errorf("%q: %q", row.text, rejected.Message)
		}
	}
}

func TestAnEmptyTextIsRejected(t *testing.T) {
	if _, err := cvss.Parse(""); err == nil {
		t.Error("an empty text is accepted")
	}
}

// The records were written by hand from FIRST's JSON schemas.
func TestRecords(t *testing.T) {
	for _, record := range lines(t, "tests/stored/records") {
		var members struct{ VectorString string }
		if err := json.Unmarshal([]byte(record), &members); err != nil {
			t.Fatal(err)
		}
		vector, err := cvss.Parse(members.VectorString)
		if err != nil || string(vector.Record()) != record {
			t.Errorf("%s: %s, %v", record, vector.Record(), err)
		}
	}
}

// The explanations are those of the second implementation in reference/, where no number has more than seven decimals.
func TestExplanations(t *testing.T) {
	for _, explanation := range lines(t, "tests/stored/explanations") {
		var members struct{ Vector string }
		if err := json.Unmarshal([]byte(explanation), &members); err != nil {
			t.Fatal(err)
		}
		vector, err := cvss.ParseIncomplete(members.Vector)
		if err != nil || string(vector.Explain()) != explanation {
			t.Errorf("%s: %s, %v", explanation, vector.Explain(), err)
		}
	}
}

// What is not defined scores as what is absent (CVSS v2 guide, section 2.2; v3.1, section 3; v4.0, section 3).
func TestWhatIsNotDefinedScoresAsAbsent(t *testing.T) {
	for _, text := range storedLines(t, "stdin") {
		vector, err := cvss.ParseIncomplete(text)
		if err != nil {
			continue
		}
		shorter := vector.WithoutNotDefined()
		if got, expected := scoresOf(shorter), scoresOf(vector); strings.Join(got, " ") != strings.Join(expected, " ") {
			t.Errorf("%v: %v has other scores", vector, shorter)
		}
		defined := 0
		for _, metric := range vector.Metrics() {
			if metric.Value != "X" && metric.Value != "ND" {
				defined++
			}
		}
		if got := len(shorter.Metrics()); got != defined && (defined > 0 || shorter != vector) {
			t.Errorf("%v: %v", vector, shorter)
		}
		if own, err := vector.WithMetrics(nil); err != nil || own != vector {
			t.Errorf("%v: %v, %v", vector, own, err)
		}
		own, err := vector.WithMetrics([]cvss.Metric{{Name: "IR", Value: "H"}})
		if err != nil || !strings.Contains(own.String(), "/IR:H") || !sameExcept(own, vector, "IR") {
			t.Errorf("%v: %v, %v", vector, own, err)
		}
	}
}

// sameExcept says whether two vectors have the same metrics except for one.
func sameExcept(one, other cvss.Vector, name string) bool {
	var texts [2]string
	for i, vector := range []cvss.Vector{one, other} {
		for _, metric := range vector.Metrics() {
			if metric.Name != name {
				texts[i] += metric.Name + ":" + metric.Value + "/"
			}
		}
	}
	return texts[0] == texts[1]
}
