package cvss_test

import (
	"errors"
	"fmt"
	"os"
	"regexp"
	"strconv"
	"strings"
	"testing"

	"yuntabek.example/cvss/v2"
)

var escape = regexp.MustCompile(`\\x(..)`)

// unescaped is a column of a row that tests/stored/expected.py has written; "-" if there is none.
func unescaped(column string) string {
	if column == `\N` {
		return "-"
	}
	return escape.ReplaceAllStringFunc(column, func(found string) string {
		code, _ := strconv.ParseUint(found[2:], 16, 8)
		return string([]byte{byte(code)})
	})
}

// outcome is the text of a vector; or the number of the kind of the error, the metric and what is quoted.
func outcome(vector cvss.Vector, err error) [2]string {
	var rejected *cvss.ParseError
	if !errors.As(err, &rejected) {
		return [2]string{vector.String(), "-"}
	}
	return [2]string{"-", fmt.Sprintf("%d %s %s", rejected.Kind, orDash(rejected.Metric), rejected.Value)}
}

// metricsOf are the metrics that a text joins; ok is false if one of them has no colon.
func metricsOf(text string) (metrics []cvss.Metric, ok bool) {
	if text == "" {
		return nil, true
	}
	for _, segment := range strings.Split(text, "/") {
		name, value, found := strings.Cut(segment, ":")
		if !found {
			return nil, false
		}
		metrics = append(metrics, cvss.Metric{Name: name, Value: value})
	}
	return metrics, true
}

// completed is the outcome of a vector that has to be complete: the first missing base metric of an incomplete one of v3.
func completed(own [2]string) [2]string {
	for _, name := range []string{"AV", "AC", "PR", "UI", "S", "C", "I", "A"} {
		if strings.HasPrefix(own[0], "CVSS:3") && !strings.Contains(own[0], "/"+name+":") {
			return [2]string{"-", "7 " + name + " "}
		}
	}
	return own
}

// rows are those of tests/stored/calls, or of the file that the variable CVSS_ROWS names.
func rows(t *testing.T) [][]string {
	t.Helper()
	path := os.Getenv("CVSS_ROWS")
	if path == "" {
		path = "../../tests/stored/calls"
	}
	text, err := os.ReadFile(path)
	if err != nil {
		t.Fatal(err)
	}
	var rows [][]string
	for _, line := range strings.Split(strings.TrimSuffix(string(text), "\n"), "\n") {
		columns := strings.Split(line, "\t")
		for i, column := range columns {
			columns[i] = unescaped(column)
		}
		rows = append(rows, columns)
	}
	return rows
}

// Vectors with other metrics, vectors that are made from metrics, what errors quote, and the four scores of v4.0 are those
// of the second implementation in reference/.
func TestCallsHaveTheirResults(t *testing.T) {
	rows, tried := rows(t), 0
	for _, row := range rows {
		vector, err := cvss.ParseIncomplete(row[0])
		if metrics, ok := metricsOf(row[1]); ok {
			own, rejected := vector.WithMetrics(metrics)
			testIndex(t, row[1], metrics, rejected, vector.WithMetrics)
			if err != nil {
				rejected = err
			}
			if got := outcome(own, rejected); got != [2]string{row[4], row[5]} {
				t.Errorf("%q: %q", row, got)
			}
			tried++
		}
		if metrics, ok := metricsOf(row[3]); ok {
			version := cvss.Version(row[2])
			expected := [2]string{row[6], row[7]}
			own, rejected := cvss.FromMetricsIncomplete(version, metrics)
			if got := outcome(own, rejected); got != expected {
				t.Errorf("%q: %q", row, got)
			}
			if got := outcome(cvss.FromMetrics(version, metrics)); got != completed(expected) {
				t.Errorf("%q: %q", row, got)
			}
			tried++
		}
		if got := outcome(vector, err); got[1] != row[8] {
			t.Errorf("%q: %q", row, got)
		}
		message := "-"
		if _, err := cvss.Parse(row[0]); err != nil {
			message = err.Error()
		}
		if message != row[9] {
			t.Errorf("%q: %q", row, message)
		}
		if got := scoresOf(vector)[4:]; strings.Join(got, " ") != strings.Join(row[10:], " ") {
			t.Errorf("%q: %v", row, got)
		}
	}
	if tried <= len(rows) {
		t.Errorf("of %d rows %d calls were tried", len(rows), tried)
	}
}

// The metrics before the index are accepted by themselves, and with the one at the index the error is the same.
func testIndex(t *testing.T, text string, metrics []cvss.Metric, err error, set func([]cvss.Metric) (cvss.Vector, error)) {
	t.Helper()
	var rejected *cvss.ParseError
	if !errors.As(err, &rejected) || rejected.Index < 0 {
		return
	}
	if _, before := set(metrics[:rejected.Index]); before != nil {
		t.Errorf("%q: %v, and not from %d on", text, before, rejected.Index)
	}
	if _, own := set(metrics[:rejected.Index+1]); own == nil || own.Error() != err.Error() {
		t.Errorf("%q: %v at %d", text, own, rejected.Index)
	}
}

func TestMetricsAreRejectedWithWhatIsQuoted(t *testing.T) {
	vector := parsed(t, stored)
	for _, metric := range []cvss.Metric{
		{Name: "E", Value: "P/RC:C"}, {Name: "E", Value: "A/RC:C"}, {Name: "E/RC:C/E", Value: "A"}, {Name: "/", Value: ""},
	} {
		component := metric.Name + ":" + metric.Value
		if got := outcome(vector.WithMetrics([]cvss.Metric{metric})); got[1] != "1 - "+component {
			t.Errorf("%s: %q", component, got)
		}
		if got := outcome(cvss.FromMetrics(cvss.V31, []cvss.Metric{metric})); got[1] != "1 - "+component {
			t.Errorf("%s: %q", component, got)
		}
		_, err := vector.WithMetrics([]cvss.Metric{{Name: "RL", Value: "O"}, metric, {Name: "E", Value: "Q"}})
		if err.Error() != "invalid CVSS metric group component: `"+component+"`" || err.(*cvss.ParseError).Index != 1 {
			t.Errorf("%#v", err)
		}
	}
	for _, quoted := range []string{"`", "A`B", "``", "A\n`", strings.Repeat("`", 3000)} {
		if got := outcome(vector.WithMetrics([]cvss.Metric{{Name: "E", Value: quoted}})); got[1] != "5 E "+quoted {
			t.Errorf("%q: %q", quoted, got)
		}
	}
	if got := outcome(cvss.FromMetrics("5.0", nil)); got[1] != "3 - 5.0" {
		t.Errorf("%q", got)
	}
}

func TestTheFirstRejectedMetricHasItsIndex(t *testing.T) {
	vector := parsed(t, stored)
	for _, row := range []struct {
		metrics string
		kind    cvss.Kind
		metric  string
		index   int
	}{
		{"E:P/XX:N/RC:Q", cvss.UnknownMetric, "", 1}, {"E:P/RL:O/RC:Q/XX:N", cvss.InvalidValue, "RC", 2},
		{"AV:Q", cvss.InvalidValue, "AV", 0}, {"E:P/e:u", cvss.DuplicateMetric, "E", 1},
		{"E:P/RL:O:O", cvss.InvalidComponent, "", 1}, {"E:P/RL:\xff", cvss.NotUTF8, "", -1},
	} {
		metrics, _ := metricsOf(row.metrics)
		for name, call := range map[string]func([]cvss.Metric) (cvss.Vector, error){
			"WithMetrics": vector.WithMetrics,
			"FromMetrics": func(metrics []cvss.Metric) (cvss.Vector, error) { return cvss.FromMetrics(cvss.V31, metrics) },
		} {
			_, err := call(metrics)
			var rejected *cvss.ParseError
			if !errors.As(err, &rejected) || rejected.Kind != row.kind || rejected.Metric != row.metric || rejected.Index != row.index {
				t.Errorf("%s of %s: %#v", name, row.metrics, err)
			}
		}
	}
	_, err := cvss.FromMetrics(cvss.V40, []cvss.Metric{{Name: "AV", Value: "N"}})
	var rejected *cvss.ParseError
	if !errors.As(err, &rejected) || rejected.Kind != cvss.MissingMetric || rejected.Metric != "AC" || rejected.Index != -1 {
		t.Errorf("%#v", err)
	}
}

// Names and values of v3 and v4.0 are in any ASCII case. A metric of any version that is there twice is rejected.
func TestMetricsAreSetInAnyCase(t *testing.T) {
	for _, row := range []struct{ text, metric, expected string }{
		{"AV:N/AC:L/Au:N/C:N/I:N/A:C/TD:L", "TD:H", "/TD:H"},
		{stored[:5] + "3.0" + stored[8:] + "/MAV:L", "mav:p", "/MAV:P"},
		{stored + "/CR:L", "Cr:h", "/CR:H"},
		{"CVSS:4.0/AV:N/AC:L/AT:N/PR:N/UI:N/VC:L/VI:L/VA:L/SC:N/SI:N/SA:N/MSI:L", "msi:s", "/MSI:S"},
	} {
		vector := parsed(t, row.text)
		metrics, _ := metricsOf(row.metric)
		own, err := vector.WithMetrics(metrics)
		if err != nil || own.String() != row.text[:strings.LastIndex(row.text, "/")]+row.expected {
			t.Errorf("%s: %v, %v", row.text, own, err)
		}
		twice, _ := metricsOf(row.metric + row.expected)
		if got := outcome(vector.WithMetrics(twice)); !strings.HasPrefix(got[1], "6 ") {
			t.Errorf("%s: %q", row.text, got)
		}
		for _, metric := range []cvss.Metric{{Name: "M\u017f", Value: "U"}, {Name: "", Value: ""}} {
			if got := outcome(vector.WithMetrics([]cvss.Metric{metric})); !strings.HasPrefix(got[1], "4 ") {
				t.Errorf("%v: %q", metric, got)
			}
		}
	}
	vector := parsed(t, "AV:N/AC:L/Au:N/C:N/I:N/A:C")
	if got := outcome(vector.WithMetrics([]cvss.Metric{{Name: "td", Value: "h"}})); got[1] != "4 - td" {
		t.Errorf("%q", got)
	}
	if got := outcome(parsed(t, stored).WithMetrics([]cvss.Metric{{Name: "CR", Value: "Q"}})); got[1] != "5 CR Q" {
		t.Errorf("%q", got)
	}
}

// The bounds are those of the table in section 5 of the v3.1 specification, and of NVD for v2.
func TestScoresHaveSeverities(t *testing.T) {
	for tenths := 0; tenths <= 100; tenths++ {
		score := cvss.Score(float64(tenths) / 10)
		v2, v3 := cvss.Low, cvss.None
		for _, bound := range []struct {
			from   int
			v2, v3 cvss.Severity
		}{{1, cvss.Low, cvss.Low}, {40, cvss.Medium, cvss.Medium}, {70, cvss.High, cvss.High}, {90, cvss.High, cvss.Critical}} {
			if tenths >= bound.from {
				v2, v3 = bound.v2, bound.v3
			}
		}
		for version, expected := range map[cvss.Version]cvss.Severity{cvss.V20: v2, cvss.V30: v3, cvss.V31: v3, cvss.V40: v3} {
			if severity, ok := score.Severity(version); !ok || severity != expected {
				t.Errorf("%v in %s: %v", score, version, severity)
			}
		}
	}
	for _, score := range []cvss.Score{-0.1, 10.1, 9.85, 98} {
		if severity, ok := score.Severity(cvss.V31); ok {
			t.Errorf("%v: %v", score, severity)
		}
	}
	if severity, ok := cvss.Score(9.8).Severity("5.0"); ok {
		t.Errorf("%v", severity)
	}
}
