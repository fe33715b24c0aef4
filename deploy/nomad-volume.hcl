# A volume of the plugin of nomad.hcl: nomad volume create nomad-volume.hcl
id        = "data"
name      = "data"
type      = "csi"
plugin_id = "pools"

capacity_min = "1GiB"
capacity_max = "2GiB"

# One node at a time, with a file system. A job claims it in the same way.
capability {
  access_mode     = "single-node-writer"
  attachment_mode = "file-system"
}

mount_options {
  fs_type = "ext4"
}
