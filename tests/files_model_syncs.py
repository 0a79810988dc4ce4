"""The syncs of files_model.py: which edits each of them settles, by the profile."""

from files_model_names import Names, Refused, apply

from blobcrash.foreign_files import IS_FILE


class Syncs(Names):
    """Names whose edits syncs settle. The files and their bytes are of a class below."""

    def settle_where(self, holds):
        """Settles edits, as a sync does."""
        for edit in self.unsettled():
            if holds(edit):
                self.settled.add(edit.number)
                if self.profile.settles == "its names":
                    apply(self.log, edit.changes)
        self.synced = self.next_edit

    def settle_all(self):
        """Settles all edits, as a commit does."""
        self.settle_where(lambda edit: True)
        self.log.clear()

    def settle_before(self, end):
        self.settle_where(lambda edit: edit.number < end)

    def unsettled(self):
        return [edit for edit in self.edits if edit.number not in self.settled]

    def after_last(self, inode, data=False):
        """The number after that of the last unsettled edit that is about an inode, or in a directory. A sync of `data` leaves out exchanges."""
        edits = [edit for edit in self.unsettled() if not (data and len(edit.inodes) == 2)]
        return max((edit.number + 1 for edit in edits if inode in edit.inodes + edit.directories), default=0)

    def settle_names(self, inode):
        """Settles the edits of an inode and, upward, those that make the new directories that its names are in."""
        edits, above, left = self.unsettled(), {inode}, [inode]
        # A move is in two directories, and a removal frees its name.
        makes = {edit.number: edit.inodes[0] for edit in edits if len(edit.inodes) == len(edit.directories) == 1 and edit.changes and edit.changes[0][1]}
        named = {entry: binding for edit in edits for entry, binding in edit.changes}
        while left:
            has = left.pop()
            found = {entry[0] for entry, binding in named.items() if binding and binding[0] == has} & set(makes.values()) - above
            above, left = above | found, left + sorted(found)
        self.settle_where(lambda edit: inode in edit.inodes or makes.get(edit.number) in above)

    def fsync(self, asked, data=False):
        inode = self.inode_of(asked)
        file = self.files[inode]
        if self.lies:
            return
        self.sync_bytes(file)
        if self.profile.settles == "up to its last or size" and data:
            self.settle_before(file.sized)
        elif self.profile.settles.startswith("up to its last"):
            self.settle_before(max(self.after_last(inode, data), file.sized))
        elif self.profile.settles == "its names":
            self.settle_names(inode)
        elif self.profile.settles == "its own":
            self.settle_where(lambda edit: inode in edit.directories)

    def sync_bytes(self, file):
        """Makes the bytes of a file durable, or fails."""
        if self.draw(self.sync_rate):
            if self.drops:
                file.drop()
            raise Refused("Injected")
        file.flush()

    def fdatasync(self, asked):
        self.fsync(asked, data=True)

    def fsyncdir(self, asked):
        directory = self.directory_of(asked.path)
        if self.lies:
            return
        if self.profile.settles == "up to its last or size":
            self.settle_all()
        elif self.profile.settles == "up to its last":
            self.settle_before(self.after_last(directory))
        else:
            if self.profile.settles == "its names":
                self.bind_moved(directory)
                self.settle_names(directory)
            self.settle_where(lambda edit: directory in edit.directories)

    def bind_moved(self, directory):
        """Makes an edit of the new name of each file that moved into a directory. The move itself is then in the old directory alone."""
        for at, edit in enumerate(self.edits[:]):
            if edit.number in self.settled or len(edit.inodes) == 2 or edit.directories[1:] != (directory,) or edit.directories[0] == directory:
                continue
            entry, binding = edit.changes[1]
            if binding[1] == IS_FILE:
                self.edits[at] = edit._replace(directories=edit.directories[:1])
                if self.names.get(entry) == binding:
                    self.bind([(entry, binding)], [binding[0]], [directory])

    def sync(self, asked):
        if self.lies:
            return
        for inode, file in sorted(self.files.items()):
            if inode not in self.gone:
                self.sync_bytes(file)
        self.settle_all()

    def settle(self, asked):
        for file in self.files.values():
            file.flush()
            file.shown = None
        self.settle_all()

    def commit(self, asked):
        self.settle_all()
