use super::{PackageGraph, PackageMetadata};
use crate::{Error, JsonValue, PackageId};
use camino::Utf8Path;

/// The members of the workspace, and where it is.
#[derive(Clone, Debug)]
pub struct Workspace<'g> {
    pub(super) graph: &'g PackageGraph,
}

impl<'g> Workspace<'g> {
    /// The folder of the workspace.
    pub fn root(&self) -> &'g Utf8Path {
        self.graph.decoded.root()
    }

    /// The folder for what is built.
    pub fn target_directory(&self) -> &'g Utf8Path {
        self.graph.decoded.target_directory()
    }

    /// The folder for what is built on the way, where it is another one and Cargo tells it, as from 1.91 on.
    pub fn build_directory(&self) -> Option<&'g Utf8Path> {
        self.graph.decoded.build_directory()
    }

    /// The IDs of the members that Cargo builds where nothing else is asked for, where Cargo tells them, as from 1.71 on.
    pub fn default_member_ids(&self) -> impl ExactSizeIterator<Item = &'g PackageId> + use<'g> {
        self.default_members().map(|member| member.id())
    }

    /// These members.
    pub fn default_members(&self) -> impl ExactSizeIterator<Item = PackageMetadata<'g>> + use<'g> {
        let graph = self.graph;
        let members = graph.decoded.default_members.iter();
        members.map(move |at| graph.package(*at))
    }

    /// The free table `workspace.metadata`.
    pub fn metadata_table(&self) -> &'g JsonValue {
        self.graph.decoded.workspace_table()
    }

    /// How many members there are.
    pub fn member_count(&self) -> usize {
        self.graph.members_by_path.len()
    }

    /// Whether a member has the name.
    pub fn contains_name(&self, name: impl AsRef<str>) -> bool {
        self.at_name(name.as_ref()).is_some()
    }

    /// Whether a member lies at the path from the workspace's root.
    pub fn contains_path(&self, path: impl AsRef<Utf8Path>) -> bool {
        self.at_path(path.as_ref()).is_some()
    }

    /// The members, by path.
    pub fn iter(&self) -> impl ExactSizeIterator<Item = PackageMetadata<'g>> + use<'g> {
        self.iter_by_path().map(|(_, member)| member)
    }

    /// The members with their paths from the workspace's root, by path.
    pub fn iter_by_path(
        &self,
    ) -> impl ExactSizeIterator<Item = (&'g Utf8Path, PackageMetadata<'g>)> + use<'g> {
        let graph = self.graph;
        let members = graph.members_by_path.iter();
        members.map(move |at| (graph.decoded.path(*at), graph.package(*at)))
    }

    /// The members with their names, by name.
    pub fn iter_by_name(
        &self,
    ) -> impl ExactSizeIterator<Item = (&'g str, PackageMetadata<'g>)> + use<'g> {
        let graph = self.graph;
        let members = graph
            .members_by_name
            .iter()
            .map(move |at| graph.package(*at));
        members.map(|member| (member.name(), member))
    }

    /// The IDs of the members, by path.
    pub fn member_ids(&self) -> impl ExactSizeIterator<Item = &'g PackageId> + use<'g> {
        self.iter().map(|member| member.id())
    }

    fn at_path(&self, path: &Utf8Path) -> Option<PackageMetadata<'g>> {
        let (graph, members) = (self.graph, &self.graph.members_by_path);
        let place = members.binary_search_by_key(&path, |at| graph.decoded.path(*at));
        Some(graph.package(members[place.ok()?]))
    }

    fn at_name(&self, name: &str) -> Option<PackageMetadata<'g>> {
        let (graph, members) = (self.graph, &self.graph.members_by_name);
        let place = members.binary_search_by_key(&name, |at| graph.package(*at).name());
        Some(graph.package(members[place.ok()?]))
    }

    /// The member at the path from the workspace's root.
    ///
    /// # Errors
    ///
    /// [`Error::UnknownWorkspacePath`] where there is none.
    pub fn member_by_path(&self, path: impl AsRef<Utf8Path>) -> Result<PackageMetadata<'g>, Error> {
        let path = path.as_ref();
        let unknown = || Error::UnknownWorkspacePath(path.to_owned());
        self.at_path(path).ok_or_else(unknown)
    }

    /// The members at the paths.
    ///
    /// # Errors
    ///
    /// [`Error::UnknownWorkspacePath`] with the first path at which there is none.
    pub fn members_by_paths<B: FromIterator<PackageMetadata<'g>>>(
        &self,
        paths: impl IntoIterator<Item = impl AsRef<Utf8Path>>,
    ) -> Result<B, Error> {
        paths
            .into_iter()
            .map(|path| self.member_by_path(path))
            .collect()
    }

    /// The member with the name.
    ///
    /// # Errors
    ///
    /// [`Error::UnknownWorkspaceName`] where there is none.
    pub fn member_by_name(&self, name: impl AsRef<str>) -> Result<PackageMetadata<'g>, Error> {
        let name = name.as_ref();
        let unknown = || Error::UnknownWorkspaceName(name.to_owned());
        self.at_name(name).ok_or_else(unknown)
    }

    /// The members with the names.
    ///
    /// # Errors
    ///
    /// [`Error::UnknownWorkspaceName`] with the first name that none has.
    pub fn members_by_names<B: FromIterator<PackageMetadata<'g>>>(
        &self,
        names: impl IntoIterator<Item = impl AsRef<str>>,
    ) -> Result<B, Error> {
        names
            .into_iter()
            .map(|name| self.member_by_name(name))
            .collect()
    }
}
