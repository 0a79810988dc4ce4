//! A search in each profile.
use super::Profile;
use std::fmt;

/// What a search came to in each profile, if it failed in one.
///
/// ```
/// # use blobcrash::files::{Profile, ProfilesFailed, each_profile};
/// let failed: ProfilesFailed<u32, &str> = each_profile(|profile| match profile {
///     Profile::Ext4 => Ok(7),
///     _ => Err("lost"),
/// }).unwrap_err();
/// assert_eq!(failed.to_string(), "it failed with 3 of 4 profiles, not with ext4\nxfs: lost\nbtrfs: lost\nposix: lost");
/// ```
#[derive(Clone, Debug, PartialEq, Eq)]
pub struct ProfilesFailed<T, E> {
    /// The error of each profile with which it failed; at least one.
    pub failed: Vec<(Profile, E)>,
    /// The result of each other profile.
    pub passed: Vec<(Profile, T)>,
}

impl<T, E: fmt::Display> fmt::Display for ProfilesFailed<T, E> {
    fn fmt(&self, f: &mut fmt::Formatter<'_>) -> fmt::Result {
        let (failed, passed) = (self.failed.len(), self.passed.len());
        write!(f, "it failed with {failed} of {} profiles", failed + passed)?;
        for (at, (profile, _)) in self.passed.iter().enumerate() {
            write!(f, "{} {profile}", if at == 0 { ", not with" } else { "," })?;
        }
        for (profile, error) in &self.failed {
            write!(f, "\n{profile}: {error}")?;
        }
        Ok(())
    }
}

impl<T: fmt::Debug, E: fmt::Debug + fmt::Display> std::error::Error for ProfilesFailed<T, E> {}

/// Calls `search` with each profile, from the one that promises most. Returns what each came to, or, after all of them, those with which
/// it failed.
///
/// ```
/// use blobcrash::files::{Files, each_profile};
/// use blobcrash::{Error, explore};
///
/// let found = each_profile(|profile| {
///     explore(&Files::builder().profile(profile), 100, |files| {
///         files.create_dir("/d")?;
///         files.sync_directory("/")?;
///         files.crash()?;
///         assert!(files.exists("/d")?);
///         Ok::<_, Error>(())
///     })
/// });
/// assert!(found.unwrap().iter().all(|(_, visited)| visited.is_complete));
/// ```
///
/// # Errors
/// [`ProfilesFailed`] if `search` returns an error.
pub fn each_profile<T, E>(
    mut search: impl FnMut(Profile) -> Result<T, E>,
) -> Result<Vec<(Profile, T)>, ProfilesFailed<T, E>> {
    let (mut failed, mut passed) = (Vec::new(), Vec::new());
    for profile in Profile::ALL {
        match search(profile) {
            Ok(found) => passed.push((profile, found)),
            Err(error) => failed.push((profile, error)),
        }
    }
    if failed.is_empty() {
        return Ok(passed);
    }
    Err(ProfilesFailed { failed, passed })
}
