// Says whether certificates are those of hosts by Go's crypto/x509, for compare_names.py.
//
// Standard input has lines of a word and octets in hex. `certificate` comes with a certificate, about which the lines behind it ask: `host` with the text of a
// host's name. Of each it prints what VerifyHostname says, `named` or `not named`, or `no certificate` where ParseCertificate takes none.
//
// usage: go_names
package main

import (
	"bufio"
	"crypto/x509"
	"encoding/hex"
	"fmt"
	"os"
	"strings"
)

func main() {
	var certificate *x509.Certificate
	lines := bufio.NewScanner(os.Stdin)
	lines.Buffer(nil, 1<<20)
	for lines.Scan() {
		word, digits, _ := strings.Cut(lines.Text(), " ")
		octets, err := hex.DecodeString(digits)
		if err != nil {
			fmt.Fprintln(os.Stderr, "go_names:", err)
			os.Exit(2)
		}
		switch {
		case word == "certificate":
			if certificate, err = x509.ParseCertificate(octets); err != nil {
				certificate = nil
			}
		case certificate == nil:
			fmt.Println("no certificate")
		case certificate.VerifyHostname(string(octets)) == nil:
			fmt.Println("named")
		default:
			fmt.Println("not named")
		}
	}
}
