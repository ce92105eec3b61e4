// The cookie with the key isn't sent where a link of another site leads here; it is by this link, with the position.
const on = document.getElementById('on');
on.addEventListener('click', (event) => {
  event.preventDefault();
  location.replace(`/?again${location.hash}`);
});
