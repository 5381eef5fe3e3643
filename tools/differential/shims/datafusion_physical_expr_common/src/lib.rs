//! A small stand-in for the crate of this name: what rows are ordered by.

pub mod sort_expr {
    use arrow::compute::SortOptions;
    use arrow::datatypes::{DataType, Schema};
    use datafusion_common::Result;

    /// What is computed for a row: here one column, of which only the type is known.
    #[derive(Debug, Clone)]
    pub struct PhysicalExpr {
        pub data_type: DataType,
    }

    impl PhysicalExpr {
        pub fn data_type(&self, _schema: &Schema) -> Result<DataType> {
            Ok(self.data_type.clone())
        }
    }

    /// One column of an order.
    #[derive(Debug, Clone)]
    pub struct PhysicalSortExpr {
        pub expr: PhysicalExpr,
        pub options: SortOptions,
    }

    /// An order by one column or more.
    #[derive(Debug, Clone)]
    pub struct LexOrdering {
        columns: Vec<PhysicalSortExpr>,
    }

    impl LexOrdering {
        /// The order by these columns; there is none by no column.
        pub fn new(columns: Vec<PhysicalSortExpr>) -> Option<Self> {
            (!columns.is_empty()).then_some(LexOrdering { columns })
        }

        pub fn iter(&self) -> std::slice::Iter<'_, PhysicalSortExpr> {
            self.columns.iter()
        }

        #[allow(clippy::len_without_is_empty)]
        pub fn len(&self) -> usize {
            self.columns.len()
        }
    }
}
