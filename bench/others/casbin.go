// casbin's role manager is asked who is authoritative. README.md says what is read and printed.
//
// A role that has another stands for "acts for": over a link from Q to P, P has the role Q. casbin has one kind of link, and a
// path over tag links first and principal links then is not a path over both mixed. So each tag is a domain, and in it a
// principal is a role twice: "p5" as itself, and "t3/5" as a node of tag 3, which "p5" has. Tag links lead between nodes, and
// the root's node has the role "t3" that is asked for. The domain of a subtag has its supertag's nodes too.
package main

import (
	"bufio"
	"fmt"
	"os"
	"runtime"
	"strconv"
	"strings"
	"time"

	roles "github.com/casbin/casbin/rbac/default-role-manager"
)

// casbin does not know its own version; bench/run says it when it builds this.
var version = "of no known version"

// No path is longer: 63 principal links, 63 tag links, and the steps between.
const maxHierarchyLevel = 128

type tag struct{ number, root, supertag int }
type tagLink struct{ tag, from, to int }
type question struct{ principal, tag string }

type tables struct {
	tags      []tag
	links     [][2]int
	tagLinks  []tagLink
	questions []question
}

const noSupertag = -1

func principal(p int) string   { return fmt.Sprintf("p%d", p) }
func tagName(t int) string     { return fmt.Sprintf("t%d", t) }
func node(t int, p int) string { return fmt.Sprintf("t%d/%d", t, p) }

func check(err error) {
	if err != nil {
		fmt.Fprintln(os.Stderr, "casbin:", err)
		os.Exit(1)
	}
}

func number(word string) int {
	n, err := strconv.Atoi(word)
	check(err)
	return n
}

func load(name string) (read tables) {
	file, err := os.Open(name)
	check(err)
	defer file.Close()
	lines := bufio.NewScanner(file)
	for lines.Scan() {
		words := strings.Fields(lines.Text())
		var n []int
		for _, word := range words[1:] {
			n = append(n, number(word))
		}
		read.take(words[0], n)
	}
	check(lines.Err())
	return read
}

func (read *tables) take(kind string, n []int) {
	switch kind {
	case "supertag":
		read.tags = append(read.tags, tag{n[0], n[1], noSupertag})
	case "subtag":
		read.tags = append(read.tags, tag{n[0], n[1], n[2]})
	case "link":
		read.links = append(read.links, [2]int{n[0], n[1]})
	case "tag_link":
		read.tagLinks = append(read.tagLinks, tagLink{n[0], n[1], n[2]})
	case "ask":
		read.questions = append(read.questions, question{principal(n[1]), tagName(n[0])})
	default:
		check(fmt.Errorf("a line of an unknown kind: %s", kind))
	}
}

// domain adds the links of one tag's domain. Tags are numbered as they are listed.
func (read *tables) domain(manager *roles.RoleManager, of tag) {
	domain := tagName(of.number)
	add := func(has, role string) { check(manager.AddLink(has, role, domain)) }
	for _, link := range read.links {
		add(principal(link[1]), principal(link[0]))
	}
	read.nodes(add, of, domain)
	if of.supertag != noSupertag {
		read.nodes(add, read.tags[of.supertag], domain)
	}
}

func (read *tables) nodes(add func(has, role string), of tag, asked string) {
	t := of.number
	add(principal(of.root), node(t, of.root))
	add(node(t, of.root), asked)
	for _, link := range read.tagLinks {
		if link.tag == t {
			add(principal(link.to), node(t, link.to))
			add(node(t, link.to), node(t, link.from))
		}
	}
}

func answer(manager *roles.RoleManager, asked question) bool {
	yes, err := manager.HasLink(asked.principal, asked.tag, asked.tag)
	check(err)
	return yes
}

// took puts all questions so many times, and says how long that took and how many were answered yes.
func took(manager *roles.RoleManager, questions []question, times int) (time.Duration, int) {
	yes := 0
	before := time.Now()
	for i := 0; i < times; i++ {
		for _, asked := range questions {
			if answer(manager, asked) {
				yes++
			}
		}
	}
	return time.Since(before), yes
}

func measure(manager *roles.RoleManager, questions []question, rounds int, least time.Duration) {
	times := 1
	for {
		if lasted, _ := took(manager, questions, times); lasted >= least {
			break
		}
		times *= 2
	}
	for round := 0; round < rounds; round++ {
		lasted, yes := took(manager, questions, times)
		fmt.Printf("round walk %d %d %d\n", lasted.Nanoseconds(), times*len(questions), yes)
	}
}

func main() {
	if len(os.Args) != 4 {
		check(fmt.Errorf("wants: FILE ROUNDS MILLISECONDS"))
	}
	read := load(os.Args[1])
	manager := roles.NewRoleManager(maxHierarchyLevel)
	for _, of := range read.tags {
		read.domain(manager, of)
	}
	fmt.Printf("version casbin %s, built by %s\nanswers walk ", version, runtime.Version())
	for _, asked := range read.questions {
		digit := "0"
		if answer(manager, asked) {
			digit = "1"
		}
		fmt.Print(digit)
	}
	fmt.Println()
	least := time.Duration(number(os.Args[3])) * time.Millisecond
	measure(manager, read.questions, number(os.Args[2]), least)
}
