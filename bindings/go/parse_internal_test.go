package cvss

import "testing"

// A call that writes more than the buffer holds leaves it as it was, and is repeated.
func TestABufferThatIsTooShortIsReplaced(t *testing.T) {
	for _, size := range []int{0, 4, 5, 100} {
		text := written(make([]byte, size), func(buffer []byte) int {
			if len(buffer) >= 5 {
				copy(buffer, "abcde")
			}
			return 5
		})
		if string(text) != "abcde" {
			t.Errorf("%q in a buffer of %d bytes", text, size)
		}
	}
}
