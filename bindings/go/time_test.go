package cvss_test

import (
	"bytes"
	"os"
	"strings"
	"testing"

	"yuntabek.example/cvss/v2"
)

// The accepted lines of the file that CVSS_LINES names, and their vectors.
func timed(b *testing.B) ([]string, []cvss.Vector) {
	text, err := os.ReadFile(os.Getenv("CVSS_LINES"))
	if err != nil {
		b.Skip("CVSS_LINES names no file")
	}
	var accepted []string
	var vectors []cvss.Vector
	for _, line := range strings.Split(string(text), "\n") {
		if vector, err := cvss.Parse(line); err == nil {
			accepted = append(accepted, line)
			vectors = append(vectors, vector)
		}
	}
	return accepted, vectors
}

func BenchmarkParse(b *testing.B) {
	lines, _ := timed(b)
	b.ResetTimer()
	for i := 0; i < b.N; i++ {
		if _, err := cvss.Parse(lines[i%len(lines)]); err != nil {
			b.Fatal(err)
		}
	}
}

func timeVectors(b *testing.B, call func(cvss.Vector)) {
	_, vectors := timed(b)
	b.ResetTimer()
	for i := 0; i < b.N; i++ {
		call(vectors[i%len(vectors)])
	}
}

func BenchmarkMetrics(b *testing.B) {
	timeVectors(b, func(v cvss.Vector) { v.Metrics() })
}

func BenchmarkWithoutNotDefined(b *testing.B) {
	timeVectors(b, func(v cvss.Vector) { v.WithoutNotDefined() })
}

func BenchmarkWithMetrics(b *testing.B) {
	metrics := []cvss.Metric{{Name: "CR", Value: "H"}, {Name: "AR", Value: "L"}}
	timeVectors(b, func(v cvss.Vector) {
		if _, err := v.WithMetrics(metrics); err != nil {
			b.Fatal(err)
		}
	})
}

func BenchmarkRecord(b *testing.B) {
	timeVectors(b, func(v cvss.Vector) { v.Record() })
}

func BenchmarkExplain(b *testing.B) {
	timeVectors(b, func(v cvss.Vector) { v.Explain() })
}

func BenchmarkScoreLine(b *testing.B) {
	lines, _ := timed(b)
	b.ResetTimer()
	for i := 0; i < b.N; i++ {
		cvss.ScoreLine(lines[i%len(lines)])
	}
}

// The time is that of one line.
func BenchmarkScoreLines(b *testing.B) {
	lines, _ := timed(b)
	all := []byte(strings.Join(lines, "\n") + "\n")
	b.ResetTimer()
	for i := 0; i < b.N; i += len(lines) {
		if bytes.Count(cvss.ScoreLines(all), []byte("\n")) != len(lines) {
			b.Fatal("a line is missing")
		}
	}
}

func BenchmarkParseError(b *testing.B) {
	for i := 0; i < b.N; i++ {
		if _, err := cvss.Parse("CVSS:3.1/AV:N/AC:L/PR:N/UI:N/S:U/C:H"); err == nil {
			b.Fatal("an incomplete vector is accepted")
		}
	}
}
