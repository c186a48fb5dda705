package main

import "runtime"

const rounds = 400000

func prefix(in, out chan int32) {
	out <- 0
	for i := 1; i < rounds; i++ {
		out <- <-in
	}
	<-in
}

func delta(in, out, other chan int32) {
	for i := 0; i < rounds; i++ {
		n := <-in
		out <- n
		other <- n
	}
}

func successor(in, out chan int32) {
	for i := 0; i < rounds; i++ {
		out <- <-in + 1
	}
}

func main() {
	runtime.GOMAXPROCS(1)
	a, b, c, d := make(chan int32), make(chan int32), make(chan int32), make(chan int32)
	go prefix(a, b)
	go delta(b, c, d)
	go successor(c, a)
	for i := 0; i < rounds; i++ {
		<-d
	}
}
