# The middle one of values[1] to values[count], which it sorts; count is odd.
function median(values, count,    i, j, value) {
    for (i = 2; i <= count; i++) {
        value = values[i]
        for (j = i; j > 1 && values[j - 1] > value; j--) values[j] = values[j - 1]
        values[j] = value
    }
    return values[(count + 1) / 2]
}
