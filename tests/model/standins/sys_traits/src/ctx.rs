//! Stand-in: the five names that lib.rs re-exports. The tree uses none of them.
pub struct FsFileWithPathsInErrors;
pub struct OperationError;
pub struct OperationErrorKind;
pub trait PathsInErrorsExt {}
pub struct SysWithPathsInErrors;
