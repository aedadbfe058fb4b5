package a

const N = 7
