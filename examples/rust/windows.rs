fn a() {
    )
}
