//go:build cgo

package cvss_test

import (
	"os"
	"os/exec"
	"path/filepath"
	"strings"
	"testing"
)

// copyOf copies the package without its tests and its library, but with some of these files.
func copyOf(t *testing.T, with ...string) string {
	t.Helper()
	folder := t.TempDir()
	sources, err := filepath.Glob("*.go")
	if err != nil {
		t.Fatal(err)
	}
	for _, name := range append(append(sources, "go.mod", "library.h", "cvss.h"), with...) {
		if strings.HasSuffix(name, "_test.go") {
			continue
		}
		content, err := os.ReadFile(name)
		if err == nil {
			err = os.WriteFile(filepath.Join(folder, name), content, 0o644)
		}
		if err != nil {
			t.Fatal(err)
		}
	}
	return folder
}

// With the tag libcvss the package is linked with libcvss.a; an error says where that is.
func TestABuildWithTheTagNamesAMissingLibrary(t *testing.T) {
	libraries, err := filepath.Glob("libcvss*.a")
	if err != nil || len(libraries) == 0 {
		t.Skip("bindings/build has not been run")
	}
	build := exec.Command("go", "build", "-tags", "libcvss", ".")
	build.Dir = copyOf(t)
	output, err := build.CombinedOutput()
	if err == nil || !strings.Contains(string(output), "share/yuntabek/go of the unpacked archive in dist/, run bindings/build") {
		t.Errorf("%v: %s", err, output)
	}
	build = exec.Command("go", "build", "-tags", "libcvss", ".")
	build.Dir = copyOf(t, libraries...)
	if output, err := build.CombinedOutput(); err != nil {
		t.Errorf("%v: %s", err, output)
	}
}
