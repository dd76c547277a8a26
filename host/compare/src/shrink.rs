//! A failing list made as short as it can be: delta debugging.

/// A part of the list on which `fails` still holds and of which no single item can be left out. `fails` holds of the
/// list itself.
pub fn shrink<T: Clone>(list: &[T], mut fails: impl FnMut(&[T]) -> bool) -> Vec<T> {
    let mut list = list.to_vec();
    let mut size = list.len().div_ceil(2);
    while size > 0 {
        let before = list.len();
        list = without_chunks(list, size, &mut fails);
        // single items are tried again as long as one could be left out
        if size > 1 {
            size = size.div_ceil(2).min(size - 1);
        } else if list.len() == before {
            size = 0;
        }
    }
    list
}

/// Leaves out each chunk of that size that is not needed.
fn without_chunks<T: Clone>(
    mut list: Vec<T>,
    size: usize,
    fails: &mut impl FnMut(&[T]) -> bool,
) -> Vec<T> {
    let mut start = 0;
    while start < list.len() {
        let end = (start + size).min(list.len());
        let shorter = [&list[..start], &list[end..]].concat();
        if fails(&shorter) {
            list = shorter;
        } else {
            start = end;
        }
    }
    list
}
