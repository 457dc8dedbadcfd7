"""What the commands of this repository, its checks and its tests share."""
