//! A small stand-in for the crate of this name.

pub mod utils {
    use arrow::compute::SortOptions;
    use datafusion_physical_expr_common::sort_expr::LexOrdering;

    /// The options of an order's columns, column by column.
    pub fn get_sort_options(ordering: &LexOrdering) -> Vec<SortOptions> {
        ordering.iter().map(|column| column.options).collect()
    }
}
