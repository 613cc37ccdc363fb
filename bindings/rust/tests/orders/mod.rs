//! Messages, or bands, in every order.

/// Every order of these.
pub fn orders<T: Copy>(list: &[T]) -> Vec<Vec<T>> {
    if list.is_empty() {
        return vec![Vec::new()];
    }
    let with_first = |first: usize| {
        let rest = [&list[..first], &list[first + 1..]].concat();
        orders(&rest).into_iter().map(move |order| [&[list[first]], &order[..]].concat())
    };
    (0..list.len()).flat_map(with_first).collect()
}
